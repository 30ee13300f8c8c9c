(app (viewer Person)

 (model Person (fields (name text) (doctor bool)))

 (model Record (fields (patient (ref Person)) (author (ref Person)) (day text) (words text))
  (group hides
   (policy
    (and (live viewer)
     (or (eq (get Record patient this) viewer) (eq (get Record author this) viewer))))))

 (view post "/join" (params (name text))
  (create p Person (set (name name)) (put p)))

 (view post "/person/{id}/doctor" (params (id (ref Person)))
  (if (or (get Person doctor viewer) (not (some (from ((p Person)) (get Person doctor p) key))))
   ((update Person id (set (doctor true))) (esc (get Person name id)) (put " is a doctor"))
   ((missing) (put "only doctors say who is one"))))

 (view post "/person/{id}/records" (params (id (ref Person)) (day text) (words text))
  (if (and (live id) (get Person doctor viewer))
   ((create r Record (set (patient id) (author viewer) (day day) (words words)) (put r)))
   ((missing) (put "only doctors write records"))))

 (view post "/record/{id}/drop" (params (id (ref Record)))
  (if (and (live viewer) (eq (get Record author id) viewer))
   ((delete Record id)) ())
  (redirect "/"))

 (view get "/" (params)
  (put (count (from ((r Record)) true key))) (put " records\n")
  (for (from ((r Record)) true (down r day))
   (esc (get Record day r)) (put " ") (esc (get Person name (get Record patient r))) (put ": ")
   (esc (get Record words r)) (put "\n")))

 (view get "/record/{id}" (params (id (ref Record)))
  (if (live id)
   ((esc (get Record words id)))
   ((missing) (put "no such record")))))
