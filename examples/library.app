(app
 (model Book (fields (title text) (cents int)))
 (model Reader (fields (name text)))
 (model Loan (fields (book (ref Book)) (reader (ref Reader))))

 (view post "/buy" (params (title text) (cents int))
  (create b Book (set (title title) (cents cents))
   (put b)))

 (view post "/join" (params (name text))
  (create r Reader (set (name name))
   (put r)))

 (view post "/lend" (params (book (ref Book)) (reader (ref Reader)))
  (create l Loan (set (book book) (reader reader))
   (esc (get Book title (get Loan book l)))))

 (view get "/readers" (params)
  (for (from ((r Reader)) true (up r name))
   (esc (get Reader name r)) (put ": ")
   (put (count (from ((l Loan)) (eq (get Loan reader l) r) key))) (put " for ")
   (put (sum (from ((l Loan)) (eq (get Loan reader l) r) key) (get Book cents (get Loan book l))))
   (put "\n")))

 (view get "/dearest" (params)
  (esc (get Book title (first (from ((b Book)) true (down b cents))))))

 (view get "/free" (params)
  (for (from ((b Book)) (not (some (from ((l Loan)) (eq (get Loan book l) b) key))) key)
   (esc (get Book title b)) (put "\n")))

 (view get "/lent" (params)
  (for (from ((r Reader) (b Book))
        (some (from ((l Loan)) (and (eq (get Loan reader l) r) (eq (get Loan book l) b)) key))
        (down b cents))
   (esc (get Reader name r)) (put " has ") (esc (get Book title b)) (put "\n")))

 (view get "/cheaper" (params (than (ref Book)))
  (for (from ((b Book) (c Book))
        (and (lt (get Book cents b) (get Book cents c)) (or (eq than c) (not (live than))))
        key)
   (esc (get Book title b)) (put " < ") (esc (get Book title c)) (put "\n"))))
