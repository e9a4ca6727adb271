-- Each call that recurses, at the greatest depth.
CREATE TABLE deep AS SELECT jb(replace(hex(zeroblob(500)), '0', '[')
    || replace(hex(zeroblob(500)), '0', ']')) AS doc;
SELECT length(jb_text(doc)), length(jb_pretty(doc)) > 2000, jb_canonical(doc) = doc FROM deep;
--> 2000|1|1
SELECT jb_valid(doc), length(jb_key(doc)), length(jb_value(doc, '$')) FROM deep;
--> 1|2000|2000
SELECT jb_compare(doc, jb_text(doc)), jb_of(jb_text(doc)) = doc FROM deep;
--> 0|1
SELECT jb(replace(hex(zeroblob(500)), '0', '[') || '}');
--! jb: InvalidJson: expected a value or ']' at byte 1000, found '}'
SELECT length(jb_group_array(jb_at(doc, '$[0]'))) - length(doc) FROM deep;
--> 0
-- Paths of SQL/JSON: what they give nests one level deeper, and they may nest themselves.
SELECT jb_query(doc, '$') FROM deep;
--! jb_query: InvalidJsonb
SELECT jb_length(jb_query(doc, '$[0]')), jb_query_first(doc, '$') = doc,
    jb_path_exists(doc, '$' || replace(hex(zeroblob(25)), '00', '[*] ? (exists(@')
        || replace(hex(zeroblob(25)), '00', '))')) FROM deep;
--> 1|1|1
-- Changes and containment, at the bottom and of the whole.
SELECT jb_valid(jb_remove(doc, '$' || replace(hex(zeroblob(999)), '00', '[0]'))),
    jb_contains(doc, doc), jb_exists(doc, 'x'), jb_length(jb_concat(doc, doc)) FROM deep;
--> 1|1|0|2
SELECT jb_exists_any(doc, '["x"]'), jb_exists_all(doc, '[]') FROM deep;
--> 0|1
SELECT jb_set(doc, '$' || replace(hex(zeroblob(999)), '00', '[0]'), 1) =
    jb(replace(hex(zeroblob(999)), '00', '[') || 1 || replace(hex(zeroblob(999)), '00', ']'))
FROM deep;
--> 1
SELECT count(*), max(length(path)) FROM deep, jb_tree(doc);
--> 1000|2995
CREATE TABLE objects AS SELECT jb(replace(hex(zeroblob(1000)), '00', '{"a":')
    || 1 || replace(hex(zeroblob(1000)), '00', '}')) AS doc;
SELECT jb_patch(doc, doc) = doc, jb_patch(jb('{}'), doc) = doc, jb_contains(doc, doc) FROM objects;
--> 1|1|1
SELECT jb_set(jb('{}'), '$' || replace(hex(zeroblob(1000)), '00', '.a'), 1) = doc FROM objects;
--> 1
