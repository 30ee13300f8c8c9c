(app
 (model Student (fields (name text)))
 (model Course (fields (title text) (seats int)))
 (model Place (fields (course (ref Course)) (student (ref Student))))

 (view post "/students" (params (name text))
  (create s Student (set (name name)) (put s)))

 (view post "/courses" (params (title text) (seats int))
  (create c Course (set (title title) (seats seats)) (put c)))

 (view post "/places" (params (course (ref Course)) (student (ref Student)))
  (create p Place (set (course course) (student student))
   (esc (get Student name student)) (put " takes ") (esc (get Course title course))))

 (view get "/courses" (params)
  (for (from ((c Course)) true (up c title))
   (esc (get Course title c)) (put ": ")
   (put (sub (get Course seats c) (count (from ((p Place)) (eq (get Place course p) c) key))))
   (put " left\n")))

 (view get "/list" (params (course (ref Course)))
  (esc (get Course title course)) (put "\n")
  (for (from ((s Student))
        (some (from ((p Place)) (and (eq (get Place course p) course) (eq (get Place student p) s)) key))
        (up s name))
   (put " ") (esc (get Student name s)) (put "\n")))

 (view get "/together" (params)
  (for (from ((p Place) (q Place))
        (and (eq (get Place course p) (get Place course q))
         (lt (get Student name (get Place student p)) (get Student name (get Place student q))))
        key)
   (esc (get Student name (get Place student p))) (put " and ")
   (esc (get Student name (get Place student q))) (put ": ")
   (esc (get Course title (get Place course p))) (put "\n"))))
