-- As json_array and json_object, whose values they take.
SELECT jb_text(jb_array()), jb_text(jb_object());
--> []|{}
SELECT jb_text(jb_array(1, 'x', NULL, '[1]', json('[1]'), jb('{"a":1.50}'), jb_of('y')));
--> [1,"x",null,"[1]",[1],{"a":1.50},"y"]
SELECT jb_text(jb_object('b', 1, 'a', NULL, '', json('{}'), 'é', jb('[1.50]')));
--> {"":{},"a":null,"b":1,"é":[1.50]}
SELECT jb_text(jb_array(jb_array(), jb_object('a', jb_array(1)), jb_binary(x'00FF')));
--> [[],{"a":[1]},"00ff"]
SELECT jb_array(1, 'x', NULL, json('[1]')) = jb(json_array(1, 'x', NULL, json('[1]'))),
    jb_object('b', 1, 'a', json('[]')) = jb(json_object('b', 1, 'a', json('[]')));
--> 1|1
SELECT length(jb_array(hex(zeroblob(5000)), 1));
--> 10014
-- Several paths of json_extract.
SELECT jb_text(jb_array(jb_at(doc, '$.a'), jb_at(doc, '$.none'), jb_at(doc, '$.b[0]')))
FROM (SELECT jb('{"a":1.50,"b":[[]]}') doc);
--> [1.50,null,[]]

SELECT jb_object('a');
--! jb_object: a name has no value
SELECT jb_object('a', 1, 'a', 2);
--! jb_object: ObjectDuplicateKey
SELECT jb_object(NULL, 1);
--! jb_object: OtherKind: names and paths are TEXT
SELECT jb_object(5, 1);
--! jb_object: OtherKind: names and paths are TEXT
SELECT jb_array(1, 1.5);
--! jb_array: BadNumber: a REAL is refused, pass decimals as TEXT
SELECT jb_array(x'00');
--! jb_array: InvalidJsonb
SELECT jb_object('a', x'00');
--! jb_object: InvalidJsonb
SELECT jb_array(json('1e99'));
--! jb_array: BadNumber: at byte 3 of a number that is unfinished or too long, in '1e99'
CREATE TABLE deep AS SELECT replace(hex(zeroblob(500)), '0', '[') AS opened,
    replace(hex(zeroblob(500)), '0', ']') AS closed;
SELECT jb_array(jb(opened || closed)) FROM deep;
--! jb_array: InvalidJsonb
SELECT jb_object('a', jb(opened || closed)) FROM deep;
--! jb_object: InvalidJsonb
SELECT jb_kind(jb_array(jb(substr(opened, 2) || substr(closed, 2)))) FROM deep;
--> array
