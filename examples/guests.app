(app
 (model Guest (fields (name text) (stars int)))
 (view post "/sign" (params (name text) (stars int))
  (create g Guest (set (name name) (stars stars))
   (put "thank you, ") (esc name)))
 (view get "/guests" (params)
  (for (from ((g Guest)) true (down g stars))
   (esc (get Guest name g)) (put " gives ") (put (get Guest stars g)) (put "\n"))
  (put (count (from ((g Guest)) (lt 3 (get Guest stars g)) key))) (put " liked it\n")))
