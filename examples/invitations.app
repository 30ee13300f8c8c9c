(app (viewer User)

 (model User (fields (name text) (town text)))

 (model Party (fields (title text) (host (ref User)))
  (group (guards (title "a party"))
   (policy
    (and (live viewer)
     (or (eq (get Party host this) viewer)
      (some (from ((i Invite)) (and (eq (get Invite party i) this) (eq (get Invite guest i) viewer)) key)))))))

 (model Invite nested (fields (party (ref Party)) (guest (ref User)) (answer text))
  (group hides
   (policy
    (and (live viewer)
     (or (eq (get Invite guest this) viewer) (eq (get Party host (get Invite party this)) viewer))))))

 (view post "/join" (params (name text) (town text))
  (create u User (set (name name) (town town)) (put u)))

 (view post "/parties" (params (title text))
  (create p Party (set (title title) (host viewer)) (put p)))

 (view post "/party/{id}/invite" (params (id (ref Party)) (town text))
  (if (and (live viewer) (eq (get Party host id) viewer))
   ((for (from ((u User)) (and (eq (get User town u) town) (not (eq u viewer))) (up u name))
     (create i Invite (set (party id) (guest u) (answer "asked"))
      (put i) (put " ") (esc (get User name u)) (put "\n"))))
   ((missing) (put "no party of yours"))))

 (view post "/invite/{id}/answer" (params (id (ref Invite)) (answer text))
  (if (and (live viewer) (eq (get Invite guest id) viewer))
   ((update Invite id (set (answer answer))) (esc (get Invite answer id)))
   ((missing) (put "no invitation of yours"))))

 (view get "/" (params)
  (for (from ((p Party)) true key)
   (esc (get Party title p)) (put "\n")
   (for (from ((i Invite)) (eq (get Invite party i) p) key)
    (put " ") (esc (get User name (get Invite guest i))) (put ": ") (esc (get Invite answer i)) (put "\n")))))
