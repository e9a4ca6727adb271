-- Binary data, by its bytes as docs/FORMAT.md has them.
SELECT quote(jb_binary(x'ABCD')), quote(jb_binary(x''));
--> X'200000006000000300ABCD'|X'200000006000000100'
SELECT jb_kind(jb_binary(x'ABCD')), jb_valid(jb_binary(x'')), jb_binary(NULL);
--> extension|1|NULL
SELECT jb_value(jb_binary(x'ABCD'), '$'), jb_text(jb_binary(x'ABCD')), jb_text(jb_binary(x''));
--> abcd|"abcd"|""
SELECT jb_text(jb_group_array(jb_binary(x'00FF'))), jb_text(jb_group_object('a', jb_binary(x'0A')));
--> ["00ff"]|{"a":"0a"}
-- A document is data like any other.
SELECT jb_kind(jb_binary(jb('[1]'))), jb_text(jb_blob(jb_binary(jb('[1]')), '$'));
--> extension|[1]

-- The bytes again.
SELECT quote(jb_blob(jb_binary(x'ABCD'), '$')), quote(jb_blob(jb_binary(x''), '$'));
--> X'ABCD'|X''
SELECT quote(jb_blob(jb_group_object('a', items), '$.a[0]'))
FROM (SELECT jb_group_array(jb_binary(x'00FF')) AS items);
--> X'00FF'
CREATE TABLE file(name TEXT, data BLOB);
INSERT INTO file VALUES ('a', randomblob(5000)), ('b', zeroblob(100000)), ('c', x'');
CREATE TABLE stored AS SELECT jb_group_object(name, jb_binary(data)) AS doc FROM file;
SELECT jb_valid(doc), length(doc) FROM stored;
--> 1|105034
SELECT name, jb_blob(doc, '$.' || name) = data, length(jb_value(doc, '$.' || name))
FROM file, stored;
--> a|1|10000
--> b|1|200000
--> c|1|0
-- Nothing is there, or no binary data; 20,000 days.
SELECT jb_blob(jb('{}'), '$.a'), jb_blob(NULL, '$'), jb_blob(jb_binary(x''), NULL);
--> NULL|NULL|NULL
SELECT count(*), count(jb_blob(document, '$'))
FROM jb_each(jb('[null,true,5,1.50,"abcd",[],{}]'));
--> 7|0
SELECT jb_blob(x'20000000600000051000004E20', '$');
--> NULL

-- Binary data is ordered by its bytes.
SELECT jb_compare(jb_binary(x'00FF'), jb_binary(x'01')), jb_compare(jb_binary(x''), jb_binary(x''));
--> -1|0

SELECT jb_binary('abcd');
--! jb_binary: OtherKind: binary data is a BLOB
SELECT jb_binary(5);
--! jb_binary: OtherKind: binary data is a BLOB
SELECT jb_blob(x'ABCD', '$');
--! jb_blob: InvalidEOF
SELECT jb_blob('abcd', '$');
--! jb_blob: InvalidJsonb: a document is a BLOB
SELECT jb_blob(jb_binary(x''), '$.');
--! jb_blob: the text is not a path: '$.'
