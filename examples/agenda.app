(app (viewer User)

 (model User (fields (name text)))

 (model Event (fields (title text) (host (ref User)) (open bool))
  (group (guards (title "private"))
   (policy (or (get Event open this) (and (live viewer) (eq (get Event host this) viewer))))))

 (model Note (fields (body text)))

 (view post "/join" (params (name text))
  (create u User (set (name name)) (put u)))

 (view post "/add" (params (title text) (open bool))
  (create e Event (set (title title) (host viewer) (open open)) (put e)))

 (view get "/list" (params)
  (for (from ((e Event)) true (up e title))
   (esc (get Event title e)) (put "\n")))

 (view post "/note" (params)
  (if (some (from ((e Event)) (eq (get Event title e) "raid") key))
   ((create n Note (set (body "a raid is planned")) (put "noted")))
   ((put "nothing to note"))))

 (view get "/notes" (params)
  (for (from ((n Note)) true key) (esc (get Note body n)) (put "\n")))

 (view post "/rename" (params (event (ref Event)) (title text))
  (if (and (live viewer) (eq (get Event host event) viewer))
   ((update Event event (set (title title))))
   ((put "not your event"))))

 (view post "/drop" (params (event (ref Event)))
  (if (and (live viewer) (eq (get Event host event) viewer))
   ((delete Event event) (redirect "/list"))
   ((missing) (put "no such event of yours")))))
