-- Each function of SQLite 3.40's json1 beside ours, on documents without floats: how many cases
-- there are, and how many differ. Results are compared as documents. FUNCTIONS.md names what this
-- leaves out.
CREATE TABLE texts(text);
INSERT INTO texts VALUES ('{"a":{"b":[1,{"c":null}],"d":[[],[[2]],{}]},"e f":"x"}'),
    ('[1,[2,[3,{"a":4}]]]'), ('"x"'), ('{}'), ('[]'), ('true'), ('[null,true,false,-1,"a"]'),
    ('{"a":[0,{"a":1,"b":"\n\"q\""}],"b":{"a":{"a":null}},"é":9223372036854775807}'),
    ('[[[[]]]]'), ('[{"a":1},{"b":2},{}]'), ('null'), ('-12'), ('{"a":null,"b":[],"c":{}}'),
    ('{"1":"one","a1":{"x":[10,20,30,40]}}'), ('[[1,2],[3,4]]'), ('""');
CREATE TABLE paths(path);
INSERT INTO paths VALUES ('$.a'), ('$.a.b'), ('$.a.b[0]'), ('$.a.b[1].c'), ('$.a.b[2]'), ('$.a[0]'),
    ('$.a[1]'), ('$.a[1].a'), ('$.a[#]'), ('$.a[#-1]'), ('$.a[#-2].x'), ('$."e f"'), ('$.e f'),
    ('$[0]'), ('$[1]'), ('$[1][1]'), ('$[1][#-1][0]'), ('$[#]'), ('$[#-1]'), ('$[#-9]'), ('$[3]'),
    ('$[5]'), ('$[#].a'), ('$[#][0]'), ('$[#][1]'), ('$[#].a.b[0].c'), ('$.new.er[0][0].est'),
    ('$.new[1]'), ('$.new[#]'), ('$.new[0]'), ('$.b.a.a'), ('$.b.a.a.a'), ('$.b[0]'), ('$.b[#]'),
    ('$.c.x'), ('$.é'), ('$.1'), ('$.a1.x[#-2]'), ('$.a1.x[4]'), ('$.a1.x[5]'), ('$[0][0][0][0]'),
    ('$[2].z'), ('$."new x"."y z"');
CREATE TABLE vals(id INTEGER PRIMARY KEY, text, is_json);
INSERT INTO vals(text, is_json) VALUES (1, 0), (-9223372036854775808, 0), ('x', 0), ('[1]', 0),
    ('[1,{"b":[]}]', 1), ('{"b":null}', 1), ('"j"', 1), (NULL, 0), ('', 0), ('null', 1), ('é', 0);
CREATE VIEW cases AS SELECT text AS t, path AS p FROM texts, paths;
CREATE TABLE results(name, ours, theirs);
INSERT INTO results SELECT 'json', jb(t), json(t) FROM cases;
INSERT INTO results SELECT 'json_valid', jb_of(jb_valid(jb(t))), json_valid(t) FROM cases;
INSERT INTO results SELECT 'json_type', jb_of(jb_type(jb(text))), json_quote(json_type(text))
    FROM texts;
INSERT INTO results SELECT 'json_type(path)', jb_of(jb_type(jb(t), p)), json_quote(json_type(t, p))
    FROM cases;
INSERT INTO results SELECT 'json_array_length', jb_of(jb_array_length(jb(text))),
    json_quote(json_array_length(text)) FROM texts;
INSERT INTO results SELECT 'json_array_length(path)', jb_of(jb_array_length(jb(t), p)),
    json_quote(json_array_length(t, p)) FROM cases;
INSERT INTO results SELECT 'json_extract', jb_of(jb_value(jb(t), p)),
    json_quote(json_extract(t, p)) FROM cases;
INSERT INTO results SELECT 'json_extract(paths)', jb_array(jb_at(jb(t), p), jb_at(jb(t), '$.a')),
    json_extract(t, p, '$.a') FROM cases;
INSERT INTO results SELECT '->', jb_at(jb(t), p), t -> p FROM cases;
INSERT INTO results SELECT '->>', jb_of(jb_value(jb(t), p)),
    CASE WHEN json_type(t, p) IN ('array', 'object') THEN json(t ->> p) ELSE json_quote(t ->> p) END
    FROM cases;
INSERT INTO results SELECT '-> name', jb_get(jb(t), substr(p, 3)), t -> substr(p, 3) FROM cases
    WHERE substr(p, 2, 1) = '.' AND p NOT LIKE '%[%' AND p NOT LIKE '%."%'
    AND p NOT LIKE '$.%.%' AND p <> '$.1';
INSERT INTO results SELECT 'json_quote', jb_of(text), json_quote(text) FROM vals;
INSERT INTO results SELECT 'json_set', jb_set(jb(t), p, text), json_set(t, p, text)
    FROM cases, vals;
INSERT INTO results SELECT 'json_set(document)', jb_set(jb(t), p, jb(text)),
    json_set(t, p, json(text)) FROM cases, vals WHERE is_json;
INSERT INTO results SELECT 'json_set(json)', jb_set(jb(t), p, json(text)),
    json_set(t, p, json(text)) FROM cases, vals WHERE is_json;
INSERT INTO results SELECT 'json_insert', jb_insert(jb(t), p, text), json_insert(t, p, text)
    FROM cases, vals;
INSERT INTO results SELECT 'json_insert(json)', jb_insert(jb(t), p, json(text)),
    json_insert(t, p, json(text)) FROM cases, vals WHERE is_json;
INSERT INTO results SELECT 'json_replace', jb_replace(jb(t), p, text), json_replace(t, p, text)
    FROM cases, vals;
INSERT INTO results SELECT 'json_replace(json)', jb_replace(jb(t), p, json(text)),
    json_replace(t, p, json(text)) FROM cases, vals WHERE is_json;
INSERT INTO results SELECT 'json_set(pairs)', jb_set(jb(t), p, 1, '$.other', 'x', '$.zz[0]', NULL),
    json_set(t, p, 1, '$.other', 'x', '$.zz[0]', NULL) FROM cases;
INSERT INTO results SELECT 'json_remove', jb_remove(jb(t), p), json_remove(t, p) FROM cases;
INSERT INTO results SELECT 'json_remove(paths)', jb_remove(jb(t), p, '$[0]', '$[0]', '$.a'),
    json_remove(t, p, '$[0]', '$[0]', '$.a') FROM cases;
INSERT INTO results SELECT 'json_remove($)', jb_remove(jb(text), '$'), json_remove(text, '$')
    FROM texts;
INSERT INTO results SELECT 'json_patch', jb_patch(jb(a.text), jb(b.text)),
    json_patch(a.text, b.text) FROM texts a, texts b;
INSERT INTO results SELECT 'json_array', jb_array(a.text, b.text, json(t.text)),
    json_array(a.text, b.text, json(t.text)) FROM vals a, vals b, texts t;
INSERT INTO results SELECT 'json_object', jb_object('b', a.text, 'a', b.text, '', json(t.text)),
    json_object('b', a.text, 'a', b.text, '', json(t.text)) FROM vals a, vals b, texts t;
INSERT INTO results SELECT 'json_group_array', jb_group_array(a.text), json_group_array(a.text)
    FROM vals a, vals b GROUP BY b.id;
INSERT INTO results SELECT 'json_group_array(json)', jb_group_array(json(text)),
    json_group_array(json(text)) FROM texts;
INSERT INTO results SELECT 'json_group_object', jb_group_object(p, text), json_group_object(p, text)
    FROM (SELECT path AS p FROM paths), vals GROUP BY id;
INSERT INTO results SELECT 'json_each',
    (SELECT jb_group_array(jb_array(key, value, type, atom, fullkey, path))
        FROM jb_each(jb(t), p)),
    (SELECT json_group_array(json_array(key, value, type, atom, fullkey, path))
        FROM json_each(t, p))
    FROM cases;
INSERT INTO results SELECT 'json_tree',
    (SELECT jb_group_array(jb_array(key, value, type, atom, fullkey, path))
        FROM jb_tree(jb(text))),
    (SELECT json_group_array(json_array(key, value, type, atom, fullkey, path))
        FROM json_tree(text))
    FROM texts;
SELECT name, count(*), sum(jb_key(ours) IS NOT jb_key(jb(theirs))) FROM results
    GROUP BY name ORDER BY min(rowid);
--> json|688|0
--> json_valid|688|0
--> json_type|16|0
--> json_type(path)|688|0
--> json_array_length|16|0
--> json_array_length(path)|688|0
--> json_extract|688|0
--> json_extract(paths)|688|0
--> ->|688|0
--> ->>|688|0
--> -> name|48|0
--> json_quote|11|0
--> json_set|7568|0
--> json_set(document)|2752|0
--> json_set(json)|2752|0
--> json_insert|7568|0
--> json_insert(json)|2752|0
--> json_replace|7568|0
--> json_replace(json)|2752|0
--> json_set(pairs)|688|0
--> json_remove|688|0
--> json_remove(paths)|688|0
--> json_remove($)|16|0
--> json_patch|256|0
--> json_array|1936|0
--> json_object|1936|0
--> json_group_array|11|0
--> json_group_array(json)|1|0
--> json_group_object|11|0
--> json_each|688|0
--> json_tree|16|0
-- How many are NULL, and how many have the same text, too.
SELECT count(*), sum(theirs IS NULL), sum(jb_text(ours) IS theirs) FROM results;
--> 46242|713|42963
-- All functions of json1 were asked.
SELECT group_concat(DISTINCT f.name) FROM pragma_function_list f
    WHERE (f.name LIKE 'json%' OR f.name LIKE '->%') AND NOT EXISTS (SELECT 1 FROM results
        WHERE substr(results.name || '(', 1, length(f.name) + 1) = f.name || '(');
--> NULL
