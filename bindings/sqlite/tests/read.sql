-- Texts of documents.
SELECT jb_text(jb('{"b": 1.50, "a": [1, {"x": "hé\n"}], "c": null}'));
--> {"a":[1,{"x":"hé\n"}],"b":1.50,"c":null}
SELECT jb_text(jb('{"a": 1, "a": 2}'));
--> {"a":2}
SELECT jb_pretty(jb('{"b": [1, true], "a": {}}'));
--> {
-->   "a": {},
-->   "b": [
-->     1,
-->     true
-->   ]
--> }
-- One control character is six: the text is longer than the document.
SELECT length(jb_text(jb_of(replace(hex(zeroblob(2000)), '00', char(1)))));
--> 12002

SELECT jb_kind(jb('null')), jb_kind(jb('true')), jb_kind(jb('1')), jb_kind(jb('""'));
--> null|boolean|number|string
SELECT jb_kind(jb('[]')), jb_kind(jb('{}')), jb_kind(x'20000000600000051000004E20');
--> array|object|extension
SELECT jb_length(jb('[1,[2,3]]')), jb_length(jb('{"a":1}')), jb_length(jb('{}'));
--> 2|1|0
SELECT jb_length(jb('"abc"')), jb_length(jb('null'));
--> NULL|NULL

-- Members as documents.
SELECT quote(jb_get(jb('{"id":7}'), 'id')), jb_get(jb('{"id":7}'), 'ix');
--> X'20000000200000025007'|NULL
SELECT jb_text(jb_get(jb('{"a":[1,{"b":2}]}'), 'a'));
--> [1,{"b":2}]
SELECT quote(jb_get(jb('{"a":null}'), 'a')), quote(jb_get(jb('{"a":true}'), 'a'));
--> X'2000000000000000'|X'2000000040000000'
SELECT jb_text(jb_get(jb('{"é":"ü"}'), 'é')), jb_text(jb_get(jb('{"":3}'), ''));
--> "ü"|3
SELECT jb_text(jb_get(jb('{"a\u0000b":1,"a":2}'), 'a' || char(0) || 'b'));
--> 1
SELECT jb_get(jb('[1]'), '0'), jb_get(jb('1'), 'a'), jb_get(NULL, 'a'), jb_get(jb('{}'), NULL);
--> NULL|NULL|NULL|NULL

-- SQL values.
SELECT typeof(v), v FROM (SELECT jb_value(jb('9223372036854775807'), '$') v);
--> integer|9223372036854775807
SELECT typeof(v), v FROM (SELECT jb_value(jb('9223372036854775808'), '$') v);
--> text|9223372036854775808
SELECT typeof(v), v FROM (SELECT jb_value(jb('-9223372036854775808'), '$') v);
--> integer|-9223372036854775808
SELECT typeof(v), v FROM (SELECT jb_value(jb('-9223372036854775809'), '$') v);
--> text|-9223372036854775809
SELECT typeof(v), v FROM (SELECT jb_value(jb('-0.50'), '$') v);
--> text|-0.50
SELECT typeof(v), v FROM (SELECT jb_value(jb('2.00'), '$') v);
--> text|2.00
SELECT jb_value(jb('true'), '$'), jb_value(jb('false'), '$'), jb_value(jb('null'), '$');
--> 1|0|NULL
SELECT typeof(v), v FROM (SELECT jb_value(jb('"a\"é"'), '$') v);
--> text|a"é
SELECT typeof(v), length(v) FROM (SELECT jb_value(jb('""'), '$') v);
--> text|0
SELECT jb_value(jb('"a\u0000b"'), '$') = 'a' || char(0) || 'b';
--> 1
SELECT jb_value(jb('{"a":[1, "x"]}'), '$.a'), jb_value(jb('{"a":{"b" : 2.50}}'), '$.a');
--> [1,"x"]|{"b":2.50}
-- Extension values: 20,000 days, binary data, an interval of 1 month, 2 days and 3 micros; those of
-- time in ISO 8601, but in documents as the format prints them. 2025-01-02 has 20,090 days.
SELECT jb_value(x'20000000600000051000004E20', '$'), jb_value(x'200000006000000300ABCD', '$');
--> 2024-10-04|abcd
SELECT jb_value(x'20000000600000114000000001000000020000000000000003', '$');
--> P1M2DT0.000003S
CREATE TEMP TABLE times AS SELECT jb_object('date', x'20000000600000051000004E7A',
    'stamp', x'20000000600000092000062AB06A436F35',
    'zoned', x'200000006000000D3000062AB06A436F3500001C20',
    'opaque', x'200000006000000350ABCD') AS doc;
SELECT typeof(jb_value(doc, '$.date')), jb_value(doc, '$.date') FROM times;
--> text|2025-01-02
SELECT jb_value(doc, '$.stamp'), jb_value(doc, '$.zoned') FROM times;
--> 2025-01-02T03:04:05.678901|2025-01-02T05:04:05.678901+02:00
SELECT key, value FROM times, jb_each(doc);
--> date|2025-01-02
--> opaque|50abcd
--> stamp|2025-01-02T03:04:05.678901
--> zoned|2025-01-02T05:04:05.678901+02:00
SELECT jb_value(doc, '$'), jb_text(doc) = jb_value(doc, '$') FROM times;
--> {"date":"20090","opaque":"50abcd","stamp":"1735787045678901","zoned":"1735787045678901 7200"}|1
SELECT jb_text(jb_at(doc, '$.date')), jb_number(doc, '$.date') FROM times;
--> "20090"|NULL
-- SQLite's own functions read them.
SELECT julianday(jb_value(doc, '$.date')) - julianday('1970-01-01') FROM times;
--> 20090.0
-- A zone of whole hours, as it was stored once; the years 0, -1 and 10000; no time at all.
SELECT jb_value(x'200000006000000A30000640D6B723800008', '$');
--> 2025-10-11T08:00:00+08:00
SELECT jb_value(x'200000006000000510FFF50558', '$'), jb_value(x'200000006000000510FFF50557', '$'),
    jb_value(x'200000006000000510002CC0A1', '$');
--> 0000-01-01|-0001-12-31|+10000-01-01
SELECT jb_value(x'20000000600000114000000000000000000000000000000000', '$');
--> PT0S
SELECT jb_value(x'200000006000000410000001', '$');
--! jb_value: InvalidJsonb
