\set ECHO none \a \t
-- Text in and out.
SELECT ' { "b" : 1.50, "a" : [ 1, null, true, "x\u00e9\n" ] } '::kohiblad;
SELECT '-0'::kohiblad, '-7'::kohiblad, '0.10'::kohiblad;
SELECT '170141183460469231731687303715884105727'::kohiblad;
SELECT '1e5'::kohiblad, '1.50e1'::kohiblad, '25e-1'::kohiblad, '[6.02e23, 0e99]'::kohiblad;
SELECT '{"k":1,"k":2}'::kohiblad, '{}'::kohiblad, '[]'::kohiblad;
SELECT '"a\u0000b"'::kohiblad;
SELECT NULL::kohiblad IS NULL;
SELECT refusal($$ SELECT '170141183460469231731687303715884105728'::kohiblad $$);
SELECT refusal($$ SELECT ''::kohiblad $$);
SELECT refusal($$ SELECT '{"a":'::kohiblad $$);
SELECT refusal($$ SELECT '"\ud800"'::kohiblad $$);
-- Where a text stops being JSON: after how many of its bytes, as UTF-8.
SELECT detail_of($$ SELECT ''::kohiblad $$);
SELECT detail_of($$ SELECT '{"a":'::kohiblad $$);
SELECT detail_of($$ SELECT '{"é":x}'::kohiblad $$);
SELECT detail_of($$ SELECT '[1.5, 1e5, ]'::kohiblad $$);
SELECT detail_of($$ SELECT (repeat('[', 1000) || 'x')::kohiblad $$);
-- Numbers: a great exponent, more than 128 bits, 256 digits after the point, and none.
SELECT detail_of($$ SELECT '[1.5, 1e99]'::kohiblad $$);
SELECT detail_of($$ SELECT '170141183460469231731687303715884105728'::kohiblad $$);
SELECT detail_of($$ SELECT ('0.' || repeat('0', 256))::kohiblad $$);
SELECT detail_of($$ SELECT '1e40'::jsonb::kohiblad $$);
SELECT detail_of($$ SELECT '[1.]'::kohiblad $$);
-- Depth.
SELECT nested_text(1000)::kohiblad::text = nested_text(1000);
SELECT refusal($$ SELECT nested_text(1001)::kohiblad $$);
SELECT refusal($$ SELECT repeat('[', 100000)::kohiblad $$);
SELECT nested_text(1000)::kohiblad::bytea = nested_bytes(1000);
SELECT nested_bytes(1000)::kohiblad = nested_text(1000)::kohiblad;
SELECT refusal($$ SELECT nested_bytes(1001)::kohiblad $$);
SELECT refusal($$ SELECT nested_bytes(100000)::kohiblad $$);
SELECT length(kohiblad_pretty(nested_text(1000)::kohiblad)) > 1000000;
SELECT kohiblad_hash(d) = kohiblad_hash(d), kohiblad_canonical(d) = d, d < d
FROM (SELECT nested_text(1000)::kohiblad AS d) s;
SELECT a < b, b > a, kohiblad_hash(a) = kohiblad_hash(b), kohiblad_key(a) < kohiblad_key(b)
FROM (SELECT nested_text(1000)::kohiblad AS a,
             replace(nested_text(1000), '[]', '[0]')::kohiblad AS b) s;
SELECT (repeat('{"a":', 999) || '[]' || repeat('}', 999))::kohiblad
    #> array_fill('a'::text, '{999}');
-- With less stack only what needs more is refused. To read a text takes none for its depth.
SET max_stack_depth = '1MB';
SELECT nested_text(1000)::kohiblad::text = nested_text(1000);
SELECT nested_bytes(1000)::kohiblad::text = nested_text(1000);
SET max_stack_depth = '100kB';
SELECT nested_text(1000)::kohiblad IS NOT NULL, '\x80000000'::bytea::kohiblad,
    kohiblad_canonical('[1]'), kohiblad_strip_nulls('[1]');
SELECT kohiblad_key(d) = kohiblad_key(d), kohiblad_hash(d) = kohiblad_hash(d), d::json::text
FROM (SELECT '[1]'::kohiblad AS d) s;
SELECT refusal($$ SELECT nested_text(1000)::kohiblad::text $$),
    refusal($$ SELECT nested_bytes(1000)::kohiblad $$);
SELECT refusal($$ SELECT kohiblad_hash(nested_text(1000)::kohiblad) $$);
RESET max_stack_depth;
-- Kinds and lengths.
SELECT kohiblad_kind('null'), kohiblad_kind('true'), kohiblad_kind('1'), kohiblad_kind('""');
SELECT kohiblad_kind('[]'), kohiblad_kind('{}');
SELECT kohiblad_length('[1,[2,3],4]'), kohiblad_length('{"a":1}'), kohiblad_length('[]');
SELECT kohiblad_length('"abc"') IS NULL, kohiblad_kind(NULL) IS NULL;
-- A date: day 1. It has no JSON form of its own, and is shown as a string.
SELECT kohiblad_kind(d), d, d #>> '{}'
FROM (SELECT '\x20000000600000051000000001'::bytea::kohiblad AS d) s;
-- Pretty and canonical forms: a time zone in hours, 8, becomes 28,800 seconds (7080).
SELECT kohiblad_pretty('{"a":[1,{}],"b":"x"}');
SELECT kohiblad_canonical(d)::bytea, kohiblad_canonical(d) = d
FROM (SELECT '\x200000006000000a30000640d6b723800008'::bytea::kohiblad AS d) s;
-- Bytes: those of the table in docs/FORMAT.md.
SELECT '[false,10,{"k":"v"}]'::kohiblad::bytea;
SELECT '\x8000000330000000200000025000000e500a4000000110000001100000016b76'::bytea::kohiblad;
SELECT refusal($$ SELECT ''::bytea::kohiblad $$);
SELECT refusal($$ SELECT '\x8000'::bytea::kohiblad $$);
SELECT refusal($$ SELECT '\x8000000000'::bytea::kohiblad $$);
SELECT refusal($$ SELECT '\x2000000010000001ff'::bytea::kohiblad $$);
SELECT refusal($$ SELECT '\x40000002100000011000000100000000000000006261'::bytea::kohiblad $$);
-- json and jsonb.
SELECT '{"b":[1.50],"a":null}'::kohiblad::jsonb, '{"b":[1.50],"a":null}'::kohiblad::json;
SELECT '{"a": 1e2}'::jsonb::kohiblad, '{"b": 1.0, "a": 2e0}'::json::kohiblad;
SELECT refusal($$ SELECT '{"a": 1e99}'::json::kohiblad $$);
SELECT refusal($$ SELECT '1e40'::jsonb::kohiblad $$);
SELECT refusal($$ SELECT '"\u0000"'::kohiblad::jsonb $$);
-- Children.
SELECT key, value FROM kohiblad_each('{"b":1.50,"a":[2],"c":null}');
SELECT key IS NULL, value, ordinality FROM kohiblad_each('["x",[]]') WITH ORDINALITY;
SELECT count(*) FROM kohiblad_each('[]');
SELECT count(*) FROM kohiblad_each('5');
SELECT count(*) FROM kohiblad_each(NULL);
SELECT count(*), sum((value #>> '{}')::int)
FROM kohiblad_each((SELECT kohiblad_agg(i::text::kohiblad) FROM generate_series(1, 100000) i));
SELECT refusal($$ SELECT * FROM kohiblad_each('{"a\u0000":1}') $$);
-- Aggregates.
SELECT kohiblad_agg(i::text::kohiblad ORDER BY i DESC) FROM generate_series(1, 100) i WHERE i > 96;
SELECT kohiblad_agg(d) FROM (VALUES ('1.0'::kohiblad), (NULL), ('[]')) v(d);
SELECT kohiblad_agg(d) IS NULL FROM (SELECT '1'::kohiblad AS d WHERE false) s;
SELECT kohiblad_object_agg(k, d) FROM (VALUES ('b', '1'::kohiblad), ('a', NULL)) v(k, d);
SELECT kohiblad_length(kohiblad_object_agg(i::text, '{}')) FROM generate_series(1, 10000) i;
SELECT refusal($$ SELECT kohiblad_object_agg('k', '1'::kohiblad) FROM generate_series(1, 2) $$);
SELECT refusal($$ SELECT kohiblad_object_agg(NULL, '1'::kohiblad) $$);
SELECT refusal($$ SELECT kohiblad_agg(nested_text(1000)::kohiblad) $$);
SELECT refusal($$ SELECT kohiblad_object_agg('k', nested_text(1000)::kohiblad) $$);
SELECT kohiblad_agg(nested_text(999)::kohiblad) = nested_text(1000)::kohiblad;
-- Only documents are joined as such: with a value of type text the other is a text too.
SELECT '[1]'::kohiblad::text || '[2]', 'a'::text || '[1]'::kohiblad, 'a'::text || '[1]'::jsonb;
SELECT ARRAY['1'::kohiblad] || '2'::kohiblad, '1'::kohiblad || ARRAY['2'::kohiblad];
