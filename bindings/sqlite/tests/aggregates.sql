CREATE TABLE t(name TEXT, value);
INSERT INTO t VALUES ('b', 1), ('a', 'two'), ('c', NULL), ('d', jb('{"k":[1.50]}')), ('e', 1);

SELECT jb_text(jb_group_array(value)) FROM t;
--> [1,"two",null,{"k":[1.50]},1]
SELECT jb_text(jb_group_object(name, value)) FROM t;
--> {"a":"two","b":1,"c":null,"d":{"k":[1.50]},"e":1}
SELECT jb_text(jb_group_array(DISTINCT value)) FROM t;
--> [1,"two",null,{"k":[1.50]}]
SELECT jb_text(jb_group_array(name) FILTER (WHERE typeof(value) = 'integer')) FROM t;
--> ["b","e"]
SELECT jb_text(jb_group_array(name)) FROM (SELECT name FROM t ORDER BY name DESC);
--> ["e","d","c","b","a"]
SELECT jb_text(jb_group_array(value)), jb_text(jb_group_object(name, value)) FROM t WHERE 0;
--> []|{}
SELECT typeof(value), jb_text(jb_group_array(name)) FROM t GROUP BY 1 ORDER BY 1;
--> blob|["d"]
--> integer|["b","e"]
--> null|["c"]
--> text|["a"]
SELECT jb_text(jb_group_object('é', 'a' || char(0) || 'b')), jb_text(jb_group_object('', ''));
--> {"é":"a\u0000b"}|{"":""}
-- As json_group_array.
SELECT jb_text(jb_group_array(value)) = json_group_array(value) FROM t
WHERE typeof(value) <> 'blob';
--> 1
-- A BLOB of 10,008 bytes, longer than the first room.
SELECT length(jb_group_array(jb_of(replace(hex(zeroblob(5000)), '0', 'x'))));
--> 10008

SELECT jb_group_array(1.5);
--! jb_group_array: BadNumber: a REAL is refused, pass decimals as TEXT
SELECT jb_group_object('a', 1.5);
--! jb_group_object: BadNumber: a REAL is refused, pass decimals as TEXT
SELECT jb_group_array(x'00');
--! jb_group_array: InvalidJsonb
SELECT jb_group_object('a', x'00');
--! jb_group_object: InvalidJsonb
SELECT jb_group_object(NULL, 1);
--! jb_group_object: OtherKind: names and paths are TEXT
SELECT jb_group_object('x', value) FROM t;
--! jb_group_object: ObjectDuplicateKey
