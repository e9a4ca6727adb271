-- A document can also be changed by its JSON text, which is lossy, or built anew from its members.
CREATE TABLE person(doc BLOB CHECK (jb_valid(doc)));
INSERT INTO person SELECT jb_group_object(column1, column2) FROM (VALUES
    ('name', jb_of('Ada')), ('height', jb('1.650')), ('born', x'20000000600000051000004E20'));
SELECT jb_text(doc), jb_kind(jb_at(doc, '$.born')) FROM person;
--> {"born":"20000","height":1.650,"name":"Ada"}|extension

-- By the text decimals keep their digits, and the date becomes a string.
SELECT jb_text(doc), jb_kind(jb_at(doc, '$.born'))
FROM (SELECT jb(json_set(jb_text(doc), '$.name', 'Bo', '$.tags', json('[1.50]'))) AS doc
    FROM person);
--> {"born":"20000","height":1.650,"name":"Bo","tags":[1.50]}|string
SELECT jb_text(jb(json_remove(jb_text(doc), '$.name'))) FROM person;
--> {"born":"20000","height":1.650}
-- A REAL has the 15 digits that SQLite prints, or an exponent.
SELECT jb_text(jb(json_set('{}', '$.a', 1.7, '$.b', 0.1 + 0.2)));
--> {"a":1.7,"b":0.3}
SELECT jb_text(jb(json_set('{}', '$.a', 1e20)));
--> {"a":100000000000000000000}
SELECT jb(json_set('{}', '$.a', 1e99));
--! jb: BadNumber: at byte 11 of a number that is unfinished or too long, in '1.0e+99'

-- Built anew, all of it stays what it is.
UPDATE person SET doc = (SELECT jb_group_object(key,
    CASE key WHEN 'height' THEN jb('1.70') ELSE document END) FROM jb_each(doc));
SELECT jb_text(doc), jb_kind(jb_at(doc, '$.born')) FROM person;
--> {"born":"20000","height":1.70,"name":"Ada"}|extension
UPDATE person SET doc = (SELECT jb_group_object(key, document) FROM jb_each(doc)
    WHERE key <> 'name');
SELECT jb_text(doc), jb_kind(jb_at(doc, '$.born')) FROM person;
--> {"born":"20000","height":1.70}|extension
