(app (viewer User)

 (model User (fields (name text)))

 (model Paper (fields (title text) (open bool) (kind int))
  (group (guards (title "hidden"))
   (policy
    (and (get Paper open this)
     (or (eq (get Paper kind this) 0)
      (or
       (and (eq (get Paper kind this) 1)
        (some (from ((r Review)) (and (eq (get Review paper r) this) (eq (get Review words r) "raid")) key)))
       (and (eq (get Paper kind this) 2)
        (not (some (from ((r Review)) (and (eq (get Review paper r) this) (eq (get Review words r) "raid")) key)))))))))
  (group (guards (kind 0)) (policy (or (eq (get Paper title this) "tea") (get Paper open this)))))

 (model Review (fields (paper (ref Paper)) (words text) (open bool) (kind int))
  (group (guards (words "no"))
   (policy
    (and (or (get Review open this) (eq (get Paper title (get Review paper this)) "tea"))
     (or (eq (get Review kind this) 0)
      (or
       (and (eq (get Review kind this) 1)
        (some (from ((v Vote)) (and (eq (get Vote review v) this) (eq (get Vote words v) "raid")) key)))
       (and (eq (get Review kind this) 2)
        (not (some (from ((v Vote)) (and (eq (get Vote review v) this) (eq (get Vote words v) "raid")) key))))))))))

 (model Vote (fields (review (ref Review)) (words text) (open bool))
  (group (guards (words "none"))
   (policy
    (or (get Vote open this)
     (some (from ((v Vote)) (and (eq (get Vote review v) (get Vote review this)) (get Vote open v)) key)))))
  (group (guards (review (none Review))) (policy (or (get Vote open this) (eq (get Vote words this) "tea")))))

 (view post "/join" (params (name text)) (create u User (set (name name)) (put u)))
 (view post "/paper" (params (title text) (open bool) (kind int))
  (create p Paper (set (title title) (open open) (kind kind)) (put p)))
 (view post "/review" (params (paper (ref Paper)) (words text) (open bool) (kind int))
  (create r Review (set (paper paper) (words words) (open open) (kind kind)) (put r)))
 (view post "/vote" (params (review (ref Review)) (words text) (open bool))
  (create v Vote (set (review review) (words words) (open open)) (put v)))
 (view post "/paper/set" (params (id (ref Paper)) (title text) (open bool) (kind int))
  (update Paper id (set (title title) (open open) (kind kind))) (put "set"))
 (view post "/review/set" (params (id (ref Review)) (paper (ref Paper)) (words text) (open bool) (kind int))
  (update Review id (set (paper paper) (words words) (open open) (kind kind))) (put "set"))
 (view post "/vote/set" (params (id (ref Vote)) (review (ref Review)) (words text) (open bool))
  (update Vote id (set (review review) (words words) (open open))) (put "set"))
 (view post "/paper/remove" (params (id (ref Paper))) (delete Paper id) (put "gone"))
 (view post "/review/remove" (params (id (ref Review))) (delete Review id) (put "gone"))
 (view post "/vote/remove" (params (id (ref Vote))) (delete Vote id) (put "gone"))
 (view get "/all" (params)
  (for (from ((p Paper)) true key) (put (get Paper title p)) (put ";"))
  (for (from ((r Review)) true key) (put (get Review words r)) (put ";"))
  (for (from ((v Vote)) true key) (put (get Vote words v)) (put ";"))))
