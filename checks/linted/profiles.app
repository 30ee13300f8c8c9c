(app (viewer Person)
 (model Person (fields (name text) (site text) (age int)))
 (view get "/{id}" (params (id (ref Person)) (note text))
  (let name (get Person name id)
   (template "<!DOCTYPE html>
<title>{{ name }}</title>
<h1 title={{ name }} data-age={{ (get Person age id) }} class='{{ note }}'>{% (put name) %}</h1>
<a href='{{ (get Person site id) }}'>site</a> <a href='/people?name={{ name }}'>alike</a>
<button onclick='greet(\"{{ note }}\")' {{ note }}>{{ note }}</button>
<p {% (if (live id)) %}class=here{% else %}class=gone{% end %}>{{ note }}</p>
<script>greet(\"{{ note }}\")</script>
")
   (put (cat "<!-- " (str (get Person age id)) " -->"))
   (put (cat "<p>" note "</p>"))
   (put (pick (live id) "<p>here" "<p>gone"))
   (put (str (live id))))))
