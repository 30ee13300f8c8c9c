(app
 (model Entry (fields (name text) (words text)))

 (view post "/sign" (params (name text) (words text))
  (create e Entry (set (name name) (words words))
   (redirect "/")))

 (view get "/" (params)
  (template "<!DOCTYPE html>
<title>Guests</title>
<h1>Guests</h1>
{% (if (some (from ((e Entry)) true key))) %}<ul>
{% (for (from ((e Entry)) true (up e name))) %}<li><b>{{ (get Entry name e) }}</b>: {{ (get Entry words e) }}</li>
{% end %}</ul>
{% else %}<p>Nobody has signed yet.</p>
{% end %}<form method='post' action='/sign'>
<input name='name'>
<input name='words'>
<button>Sign</button>
</form>
")))
