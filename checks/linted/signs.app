(app (viewer Person)
 (model Person (fields (name text) (site text)))
 (model Sign (fields (words text) (by (ref Person)) (wide bool)))
 (view get "/" (params (q text) (wide bool))
  (template "<!DOCTYPE html>
<form action='/{{ q }}'><input name=q value={{ q }}></form>
{% (for (from ((s Sign)) true key)) %}
<p {% (if (get Sign wide s)) %}title='{% else %}title={% end %}{{ (get Person name (get Sign by s)) }}'>{{ (get Sign words s) }}</p>
{% (let link (get Person site (get Sign by s))) %}<a href='{{ (cat \"/\" link) }}'>on</a> <a href=\"javascript:show('{{ link }}')\">show</a>
<iframe srcdoc='{{ (get Sign words s) }}'></iframe> <img srcset='{{ link }} 2x'> <a href='/person/{{ link }}'>of</a>{% end %}
{% end %}<a href='mailto:{{ q }}'>write</a><meta http-equiv='refresh' content='9; url={{ q }}'>"))
 (view get "/list" (params (q text) (wide bool))
  (let open "<p title="
   (let shown ""
    (for (from ((s Sign)) true key)
     (assign shown (cat shown "<li>" (get Person name (get Sign by s)))))
    (put open) (esc q) (put ">") (put shown)))
  (put (pick wide "<p id='a'" "<p id=")) (esc q) (put "'>")
  (for (from ((s Sign)) true key)
   (esc (get Sign words s)) (put "<p title="))))
