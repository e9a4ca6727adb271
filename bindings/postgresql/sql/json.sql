\set ECHO none \a \t
-- The server's JSON functions take a document as the value that it is, as they take jsonb.
CREATE TABLE valued AS
    SELECT i, d, d::jsonb AS j
    FROM unnest('{"{\"a\": [1.50, {\"b\": null}]}", "[]", "\"q\\\"\"", "-0.10", "true", "null",
                  NULL}'::kohiblad[]) WITH ORDINALITY u(d, i);
SELECT i, to_json(d), row_to_json(v) FROM (SELECT i, d FROM valued) v ORDER BY i;
SELECT json_agg(d ORDER BY i), array_to_json(array_agg(d ORDER BY i)) FROM valued;
SELECT json_build_object('d', d), json_build_array(d, i), jsonb_build_object('d', d)
FROM valued WHERE i = 1;
SELECT json_object_agg(i, d ORDER BY i) FROM valued;
SELECT count(*) FILTER (WHERE to_jsonb(d) = j),
    count(*) FILTER (WHERE jsonb_build_object('v', d) = jsonb_build_object('v', j)),
    count(*) FILTER (WHERE jsonb_build_array(d, d) = jsonb_build_array(j, j)),
    count(*) FILTER (WHERE row_to_json(ROW(d, i))::jsonb = row_to_json(ROW(j, i))::jsonb),
    count(*) FILTER (WHERE to_jsonb(ARRAY[d]) = to_jsonb(ARRAY[j])) FROM valued;
SELECT jsonb_agg(d ORDER BY i) = jsonb_agg(j ORDER BY i),
    jsonb_object_agg(i, d) = jsonb_object_agg(i, j) FROM valued;
CREATE DOMAIN priced AS kohiblad CHECK (VALUE -> 'price' IS NOT NULL);
SELECT to_jsonb('{"price":1.50}'::priced), json_build_array('{"price":1.50}'::priced);
-- A date is a string there, and in the casts, which are assignments too.
CREATE TABLE assigned (j json, b jsonb);
INSERT INTO assigned
    SELECT d, d FROM (SELECT '\x80000001600000051000000001'::bytea::kohiblad AS d) s RETURNING *;
SELECT to_json(d), to_jsonb(d)
FROM (SELECT '\x80000001600000051000000001'::bytea::kohiblad AS d) s;
SELECT nested_text(1000)::kohiblad::json::text = nested_text(1000),
    nested_text(1000)::kohiblad::jsonb = nested_text(1000)::jsonb;
SELECT to_json('["\u0000"]'::kohiblad), refusal($$ SELECT to_jsonb('["\u0000"]'::kohiblad) $$);
-- So an index of jsonb can be had over documents.
CREATE TABLE contained AS
    SELECT i, format('{"id":%s,"tags":["t%s"]}', i, i % 100)::kohiblad AS d
    FROM generate_series(1, 2000) i;
CREATE INDEX by_content ON contained USING gin ((d::jsonb));
ANALYZE contained;
SELECT plan_has($$ SELECT * FROM contained WHERE d::jsonb @> '{"tags":["t7"]}' $$, 'by_content');
SELECT count(*), min(i) FROM contained WHERE d::jsonb @> '{"tags":["t7"]}';
