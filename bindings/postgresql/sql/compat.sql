\set ECHO none \a \t
-- Queries that were written for a jsonb column have the same answers, word for word, where the
-- column has documents and kohiblad_compat is loaded.
SET client_min_messages = warning;
CREATE EXTENSION kohiblad_compat;
CREATE SCHEMA of_jsonb;
CREATE SCHEMA of_kohiblad;
CREATE TABLE of_jsonb.orders AS
SELECT i AS id, jsonb_build_object('id', i, 'total', i * 12.50, 'paid', i % 3 = 0, 'note', NULL,
    'customer', jsonb_build_object('name', 'n' || i % 7,
                                   'town', (ARRAY['Oslo', 'Rome'])[i % 2 + 1]),
    'tags', to_jsonb(ARRAY['t' || i % 4, 't' || i % 5]),
    'lines', jsonb_build_array(jsonb_build_object('sku', 'a' || i % 6, 'count', i % 9),
                               jsonb_build_object('sku', 'b', 'count', 2))) AS doc
FROM generate_series(1, 60) i;
CREATE TABLE of_kohiblad.orders AS SELECT id, doc::kohiblad AS doc FROM of_jsonb.orders;
CREATE TABLE line_type (sku text, count int);
-- The rows of a query, in one order.
CREATE FUNCTION answer(query text, schema text) RETURNS jsonb LANGUAGE plpgsql AS $$
DECLARE
    shown jsonb;
BEGIN
    PERFORM set_config('search_path', schema || ', public', true);
    EXECUTE 'WITH q AS (' || query || ') SELECT jsonb_agg(to_jsonb(q) ORDER BY to_jsonb(q)) FROM q'
        INTO shown;
    RETURN shown;
END $$;
CREATE TABLE column_queries (number int GENERATED ALWAYS AS IDENTITY, query text);
\copy column_queries (query) FROM STDIN
SELECT id FROM orders WHERE doc @> '{"paid": true}'::jsonb
SELECT id FROM orders WHERE doc @> '{"customer": {"town": "Oslo"}}'
SELECT id FROM orders WHERE doc @> jsonb_build_object('tags', jsonb_build_array('t1'))
SELECT id FROM orders WHERE '{"id": 7, "x": 1}'::jsonb @> (doc - 'total' - 'paid' - 'note' - 'customer' - 'tags' - 'lines')
SELECT id FROM orders WHERE doc -> 'tags' <@ '["t1", "t2", "t3"]'::jsonb
SELECT id FROM orders WHERE doc -> 'total' = '25'::jsonb
SELECT id FROM orders WHERE to_jsonb(25.00) = doc -> 'total'
SELECT id FROM orders WHERE doc -> 'total' = ANY (ARRAY['25'::jsonb, '50'::jsonb])
SELECT id FROM orders WHERE doc -> 'paid' <> 'true'::jsonb
SELECT id FROM orders WHERE doc -> 'total' > '700'::jsonb
SELECT id, doc || jsonb_build_object('seen', true) AS doc FROM orders
SELECT id, jsonb_build_object('seen', true) || doc AS doc FROM orders
SELECT id, doc -> 'tags' || '"new"'::jsonb AS tags FROM orders
SELECT id, coalesce(doc -> 'discount', '{}'::jsonb) AS discount FROM orders
SELECT id, coalesce('[]'::jsonb, doc -> 'tags') AS tags FROM orders
SELECT id, CASE WHEN doc ? 'note' THEN doc -> 'note' ELSE 'null'::jsonb END AS note FROM orders
SELECT id, CASE WHEN doc -> 'paid' = 'true' THEN '[]'::jsonb ELSE doc -> 'lines' END AS open FROM orders
SELECT id, nullif(doc -> 'note', 'null'::jsonb) AS note FROM orders
SELECT greatest(doc -> 'id', '30'::jsonb) AS g FROM orders
SELECT doc -> 'id' AS v FROM orders UNION SELECT '"none"'::jsonb
SELECT id, jsonb_typeof(doc -> 'tags') AS t, jsonb_typeof(doc -> 'note') AS n FROM orders
SELECT id FROM orders WHERE jsonb_typeof(doc) = 'object' AND jsonb_array_length(doc -> 'lines') = 2
SELECT sum(jsonb_array_length(doc -> 'tags')) AS n FROM orders
SELECT DISTINCT jsonb_object_keys(doc) AS key FROM orders
SELECT id, tag FROM orders, jsonb_array_elements_text(doc -> 'tags') AS tag
SELECT id, line ->> 'sku' AS sku FROM orders, jsonb_array_elements(doc -> 'lines') AS line
SELECT id, n, line FROM orders, jsonb_array_elements(doc -> 'lines') WITH ORDINALITY AS l(line, n)
SELECT id FROM orders WHERE EXISTS (SELECT FROM jsonb_array_elements(doc -> 'lines') l WHERE (l ->> 'count')::int > 7)
SELECT line ->> 'sku' AS sku, sum((line ->> 'count')::int) FROM orders, jsonb_array_elements(doc -> 'lines') line GROUP BY 1
SELECT id, key, value FROM orders, jsonb_each(doc -> 'customer')
SELECT id, key, value FROM orders, jsonb_each_text(doc -> 'customer')
SELECT id, e.value FROM orders, LATERAL jsonb_each(doc) e WHERE e.key = 'total'
SELECT id, jsonb_extract_path(doc, 'customer', 'town') AS town FROM orders
SELECT jsonb_extract_path_text(doc, 'customer', 'town') AS town, count(*) FROM orders GROUP BY 1
SELECT id, jsonb_set(doc, '{customer,town}', '"Bonn"') AS doc FROM orders
SELECT id, jsonb_set(doc, '{total}', to_jsonb((doc ->> 'total')::numeric * 2)) AS doc FROM orders
SELECT id, jsonb_set(doc, ARRAY['tags', '0'], '"first"'::jsonb, false) AS doc FROM orders
SELECT id, jsonb_set_lax(doc, '{note}', NULL, true, 'delete_key') AS doc FROM orders
SELECT id, jsonb_insert(doc, '{tags,0}', '"front"') AS doc FROM orders
SELECT id, jsonb_strip_nulls(doc) AS doc FROM orders
SELECT id, doc - 'lines' #- '{customer,name}' AS doc FROM orders
SELECT id, jsonb_delete(doc, 'lines') AS doc FROM orders
SELECT id FROM orders WHERE jsonb_exists(doc, 'note') AND jsonb_exists_any(doc -> 'tags', ARRAY['t1', 't3'])
SELECT id FROM orders WHERE doc -> 'tags' ?| ARRAY['t1', 't3'] AND doc ?& ARRAY['id', 'total']
SELECT id, jsonb_path_query(doc, '$.lines[*].sku') AS sku FROM orders
SELECT id, jsonb_path_query_array(doc, '$.lines[*] ? (@.count > $least)', jsonb_build_object('least', 5)) AS found FROM orders
SELECT id, jsonb_path_query_first(doc, '$.tags[last]') AS tag FROM orders
SELECT id FROM orders WHERE jsonb_path_exists(doc, '$.lines[*] ? (@.count == 8)')
SELECT id FROM orders WHERE jsonb_path_match(doc, '$.total > 700') AND doc @@ '$.paid == true'
SELECT id, r.* FROM orders, jsonb_to_record(doc -> 'customer') AS r(name text, town text)
SELECT id, r.* FROM orders, jsonb_to_recordset(doc -> 'lines') AS r(sku text, count int)
SELECT id, r.* FROM orders, jsonb_populate_record(NULL::line_type, doc -> 'lines' -> 0) AS r
SELECT id, r.* FROM orders, jsonb_populate_recordset(NULL::line_type, doc -> 'lines') AS r
SELECT doc -> 'customer' ->> 'town' AS town, jsonb_agg(doc -> 'id' ORDER BY id) AS ids FROM orders GROUP BY 1
SELECT jsonb_object_agg(id, doc -> 'customer') AS customers FROM orders
SELECT jsonb_build_object('id', id, 'doc', doc, 'list', jsonb_build_array(doc -> 'tags')) AS shown FROM orders
SELECT id, row_to_json(o) AS shown, to_jsonb(doc) AS doc FROM orders o
SELECT id FROM orders WHERE to_tsvector('english', doc) @@ 'oslo & t1' AND jsonb_to_tsvector('english', doc, '["string"]') @@ 'n1'
SELECT * FROM jsonb_to_recordset('[{"sku": "a", "count": 1}]') AS r(sku text, count int)
SELECT jsonb_set('{"a": 1}', '{a}', '2') AS doc, jsonb_array_length('[1]') AS n, jsonb_typeof(NULL) AS nothing
\.
SELECT count(*) FROM column_queries;
SELECT number, jsonb_array_length(answer(query, 'of_jsonb')),
    answer(query, 'of_kohiblad') = answer(query, 'of_jsonb')
FROM column_queries ORDER BY number;
-- Commands that change rows.
CREATE FUNCTION done(command text, schema text) RETURNS text LANGUAGE plpgsql AS $$
BEGIN
    PERFORM set_config('search_path', schema || ', public', true);
    EXECUTE command;
    RETURN (SELECT md5(jsonb_agg(to_jsonb(o) ORDER BY id)::text) FROM (TABLE orders) o);
END $$;
CREATE TABLE column_commands (number int GENERATED ALWAYS AS IDENTITY, command text);
\copy column_commands (command) FROM STDIN
INSERT INTO orders VALUES (61, '{"id": 61}'), (62, jsonb_build_object('id', 62))
UPDATE orders SET doc = jsonb_set(doc, '{customer}', coalesce(doc -> 'customer', '{}'::jsonb) || '{"vip": true}'::jsonb) WHERE id > 50
UPDATE orders SET doc = CASE WHEN doc ? 'tags' THEN doc ELSE doc || '{"tags": []}'::jsonb END
UPDATE orders SET doc['paid'] = 'true'::jsonb WHERE NOT jsonb_exists(doc, 'paid')
DELETE FROM orders WHERE doc @> '{"customer": {"town": "Rome"}}'::jsonb
ALTER TABLE orders ADD CHECK (jsonb_typeof(doc) = 'object')
CREATE INDEX ON orders ((jsonb_extract_path_text(doc, 'customer', 'town')))
CREATE VIEW towns AS SELECT id, jsonb_path_query_first(doc, '$.customer.town') AS town FROM orders
\.
SELECT number, done(command, 'of_jsonb') = done(command, 'of_kohiblad')
FROM column_commands ORDER BY number;
SELECT pg_get_expr(conbin, conrelid) FROM pg_constraint
WHERE conrelid = 'of_kohiblad.orders'::regclass;
-- What one function took takes it still: a jsonb, a literal, a parameter without a type.
SELECT pg_typeof(jsonb_set('{}'::jsonb, '{a}', '1')), pg_typeof(jsonb_set('{}', '{a}', '1')),
    pg_typeof(jsonb_set('{}'::kohiblad, '{a}', '1'));
PREPARE lines AS SELECT * FROM jsonb_to_recordset($1) AS r(a int);
EXECUTE lines('[{"a": 1}]');
SELECT refusal($$ SELECT jsonb_typeof('[1,]') $$), refusal($$ SELECT jsonb_array_length('{}') $$);
-- It must be where the type is.
CREATE SCHEMA elsewhere;
DROP EXTENSION kohiblad_compat CASCADE;
-- Without it the functions of this type are column_queries.
SELECT count(*) FROM column_queries
WHERE answer(replace(replace(query, 'jsonb_', 'kohiblad_'), '::jsonb', '::kohiblad'), 'of_kohiblad')
    IS NOT DISTINCT FROM answer(query, 'of_jsonb');
SELECT refusal('CREATE EXTENSION kohiblad_compat SCHEMA elsewhere');
SELECT count(*) FROM pg_proc WHERE proname LIKE 'jsonb%' AND pronamespace = 'public'::regnamespace;
DROP SCHEMA of_jsonb, of_kohiblad, elsewhere CASCADE;
