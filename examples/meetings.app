(app (viewer User)
 (model User (fields (name text)))
 (model Event (fields (title text) (host (ref User)) (open bool))
  (group (guards (title "private") (host (none User)))
   (policy
    (or (get Event open this)
        (and (live viewer)
             (or (eq (get Event host this) viewer)
                 (some (from ((g Guest)) (and (eq (get Guest event g) this) (eq (get Guest user g) viewer)) key))))))))
 (model Guest (fields (event (ref Event)) (user (ref User))))

 (view post "/join" (params (name text))
  (create u User (set (name name)) (put u)))

 (view post "/add" (params (title text) (open bool))
  (create e Event (set (title title) (host viewer) (open open))
   (redirect (cat "/event/" (str e)))))

 (view post "/event/{id}/invite" (params (id (ref Event)) (user (ref User)))
  (if (and (live user) (and (live viewer) (eq (get Event host id) viewer)))
   ((create g Guest (set (event id) (user user))) (redirect (cat "/event/" (str id))))
   ((missing))))

 (view get "/" (params)
  (template "<!DOCTYPE html>
<title>Meetings</title>
<ul>
{% (for (from ((e Event)) true (up e title))) %}<li><a href='/event/{{ e }}'>{{ (get Event title e) }}</a></li>
{% end %}</ul>
"))

 (view get "/event/{id}" (params (id (ref Event)))
  (template "<!DOCTYPE html>
{% (if (live id)) %}<title>{{ (get Event title id) }}</title>
<p>Host: {{ (get User name (get Event host id)) }}</p>
<ul>
{% (for (from ((g Guest)) (eq (get Guest event g) id) key)) %}<li>{{ (get User name (get Guest user g)) }}</li>
{% end %}</ul>
{% else %}<title>No such event</title>
{% end %}")
  (if (live id) () ((missing)))))
