(app (viewer Person)
 (model Person (fields (name text)))
 (model Paper (fields (title text) (owner (ref Person)))
  (group hides
   (policy
    (and (live viewer)
     (or (eq (get Paper owner this) viewer)
      (some (from ((r Reader)) (and (eq (get Reader paper r) this) (eq (get Reader person r) viewer)) key)))))))
 (model Reader (fields (paper (ref Paper)) (person (ref Person)))
  (group hides
   (policy
    (and (live viewer)
     (or (eq (get Reader person this) viewer) (eq (get Paper owner (get Reader paper this)) viewer))))))
 (view post "/people" (params (name text)) (create p Person (set (name name)) (put p)))
 (view post "/paper" (params (title text))
  (if (live viewer) ((create p Paper (set (title title) (owner viewer)) (put p))) ((missing))))
 (view post "/share" (params (id (ref Paper)) (with (ref Person)))
  (if (and (live viewer) (eq (get Paper owner id) viewer))
   ((create r Reader (set (paper id) (person with))) (put "shared"))
   ((missing))))
 (view get "/" (params) (for (from ((p Paper)) true key) (esc (get Paper title p)) (put ";"))))
