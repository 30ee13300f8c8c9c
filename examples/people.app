(app
 (model User (fields (name text) (town text)))

 (view post "/join" (params (name text) (town text))
  (create u User (set (name name) (town town))
   (put u)))

 (view get "/all" (params)
  (for (from ((u User)) true key)
   (esc (get User name u)) (put " of ") (esc (get User town u)) (put "\n"))))
