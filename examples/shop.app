(app
 (model Item (fields (name text) (cents int) (pieces int)))

 (view post "/order" (params (name text) (cents int) (pieces int) (gift bool))
  (create i Item
   (set (name (cat name (pick gift " (a gift)" "")))
    (cents cents)
    (pieces (pick (lt pieces 1) 1 pieces)))
   (put (str (get Item pieces i)))))

 (view get "/bill" (params (discount int))
  (for (from ((i Item)) true key)
   (put (get Item pieces i)) (put " x ") (esc (get Item name i)) (put ": ")
   (put (sub (mul (get Item cents i) (get Item pieces i)) discount))
   (put (pick (and (lt 9 (get Item pieces i)) (not (eq discount 0))) ", many and cheap" ""))
   (put "\n"))))
