(app (viewer User)

 (model User (fields (name text)))

 (model Note (fields (title text) (stars int) (owner (ref User)) (phone text))
  (group (guards (phone "hidden")) (policy (and (live viewer) (eq (get Note owner this) viewer)))))

 (view post "/users" (params (name text))
  (create u User (set (name name))
   (redirect "/")))

 (view post "/notes" (params (title text) (stars int) (phone text))
  (if (live viewer)
   ((create n Note (set (title title) (stars stars) (owner viewer) (phone phone))
     (redirect (cat "/note/" (str n)))))
   ((missing) (put "<p>Only who is logged in writes notes. <a href='/'>Back</a>\n"))))

 (view get "/" (params (skip int))
  (let place 0
   (put "<ul>\n")
   (for (from ((n Note)) true (up n title))
    (if (and (not (lt place skip)) (lt place (add skip 2)))
     ((template "<li><a href='/note/{{ n }}'>{{ (get Note title n) }}</a></li>\n"))
     ())
    (assign place (add place 1)))
   (template "</ul>
{% (if (lt 0 skip)) %}<a href='/?skip={{ (sub skip 2) }}'>Before</a>
{% end %}{% (if (lt (add skip 2) place)) %}<a href='/?skip={{ (add skip 2) }}'>More</a>
{% end %}<a href='/sorted?by=stars'>The best first</a>
<form method='post' action='/notes'><input name='title'> <input name='stars'> <input name='phone'> <button>Add</button></form>
<form method='post' action='/users'><input name='name'> <button>Join</button></form>
")))

 (view get "/sorted" (params (by text))
  (if (eq by "stars")
   ((for (from ((n Note)) true (down n stars))
     (template "<p>{{ (get Note title n) }}, {{ (get Note stars n) }}</p>\n")))
   ((for (from ((n Note)) true (up n title))
     (template "<p>{{ (get Note title n) }}, {{ (get Note stars n) }}</p>\n")))))

 (view get "/note/{id}" (params (id (ref Note)))
  (let mine (and (live viewer) (eq (get Note owner id) viewer))
   (if (live id)
    ((template "<h1>{{ (get Note title id) }}</h1>
<p>Call {{ (get Note phone id) }}.</p>
<form method='post' action='/note/{{ id }}'>
<input name='title' value='{{ (get Note title id) }}'>
{% (if mine) %}<input name='phone' value='{{ (get Note phone id) }}'>
{% end %}<button>Save</button>
</form>
{% (if mine) %}<form method='post' action='/note/{{ id }}/remove'><button>Remove</button></form>
{% end %}"))
    ((missing) (put "<p>No such note. <a href='/'>Back</a>\n")))))

 (view post "/note/{id}" (params (id (ref Note)) (title text) (phone text))
  (if (and (live viewer) (live id))
   ((update Note id (set (title title)))
    (if (eq (get Note owner id) viewer)
     ((update Note id (set (phone phone))))
     ())
    (redirect (cat "/note/" (str id))))
   ((missing) (put "<p>No such note. <a href='/'>Back</a>\n"))))

 (view post "/note/{id}/remove" (params (id (ref Note)))
  (if (and (live viewer) (eq (get Note owner id) viewer))
   ((delete Note id) (redirect "/"))
   ((missing) (put "<p>That note isn't yours. <a href='/'>Back</a>\n")))))
