\set ECHO none \a \t
-- Random documents: what the functions return is what those of jsonb return, and what they refuse
-- is refused with the same SQLSTATE.
SELECT setseed(0.51) IS NOT NULL;
CREATE FUNCTION one_of(choices text[]) RETURNS text LANGUAGE sql VOLATILE AS $$
    SELECT choices[1 + floor(random() * cardinality(choices))::int]
$$;
-- The text of a document that nests at most so deep.
CREATE FUNCTION random_text(depth int) RETURNS text LANGUAGE plpgsql VOLATILE AS $$
DECLARE
    parts text[] := '{}';
    is_object bool := random() < 0.55;
BEGIN
    IF depth = 0 OR random() < 0.2 THEN
        RETURN one_of('{"null",true,false,0,1,2,1.0,-3,1.50,12345678901234567890,
                        "\"a\"","\"b\"","\"\"","\"0\"","\"é\"","[]","{}"}');
    END IF;
    FOR i IN 1 .. floor(random() * 5)::int LOOP
        parts := parts || (CASE WHEN is_object THEN '"' || one_of('{a,b,c,d,0,1,-1,"",é}') || '":'
                                ELSE '' END || random_text(depth - 1));
    END LOOP;
    RETURN CASE WHEN is_object THEN '{' || array_to_string(parts, ',') || '}'
                ELSE '[' || array_to_string(parts, ',') || ']' END;
END $$;
-- A path, and the same as subscripts.
CREATE FUNCTION random_path() RETURNS text[] LANGUAGE sql VOLATILE AS $$
    SELECT coalesce(array_agg(one_of('{a,b,c,d,0,1,2,-1,-2,-9,7,x,"",é,NULL}')), '{}')
    FROM generate_series(1, floor(random() * 4)::int)
$$;
CREATE FUNCTION subscripts_of(path text[]) RETURNS text LANGUAGE sql AS $$
    SELECT string_agg('[' || CASE WHEN it ~ '^-?[0-9]+$' THEN it ELSE quote_nullable(it) END || ']',
                      '' ORDER BY place)
    FROM unnest(path) WITH ORDINALITY paths(it, place)
$$;
-- The text of a container, without the white space that jsonb writes.
CREATE FUNCTION squeezed(shown text) RETURNS text LANGUAGE sql AS $$
    SELECT CASE WHEN shown ~ '^[[{]' THEN shown::jsonb::kohiblad::text ELSE shown END
$$;
-- A merge patch as RFC 7396 describes it, which the server does not have.
CREATE FUNCTION jsonb_merge_patch(target jsonb, patch jsonb) RETURNS jsonb
LANGUAGE plpgsql STRICT AS $$
DECLARE
    name text;
    part jsonb;
BEGIN
    IF jsonb_typeof(patch) <> 'object' THEN
        RETURN patch;
    END IF;
    IF jsonb_typeof(target) <> 'object' THEN
        target := '{}';
    END IF;
    FOR name, part IN SELECT key, value FROM jsonb_each(patch) LOOP
        target := CASE part WHEN 'null' THEN target - name
            ELSE jsonb_set(target, ARRAY[name],
                           jsonb_merge_patch(coalesce(target -> name, '{}'), part)) END;
    END LOOP;
    RETURN target;
END $$;
-- What a command returns, or the SQLSTATE of its error.
CREATE FUNCTION answer_of(command text) RETURNS text LANGUAGE plpgsql AS $$
DECLARE
    result text;
BEGIN
    EXECUTE command INTO result;
    RETURN result;
EXCEPTION WHEN OTHERS THEN
    RETURN SQLSTATE;
END $$;
-- A command with %1$L for a document, %2$L for another, %3$L for a path and %4$L for a key, whose
-- answer is a document or not.
CREATE TABLE commands (number int, is_document bool, command text);
INSERT INTO commands VALUES
    (1, false, 'SELECT %1$L::TYPE @> %2$L::TYPE'),
    (2, false, 'SELECT %2$L::TYPE <@ %1$L::TYPE'),
    (3, false, 'SELECT %1$L::TYPE ? %4$L'),
    (4, false, 'SELECT %1$L::TYPE ?| %3$L::text[]'),
    (5, false, 'SELECT %1$L::TYPE ?& %3$L::text[]'),
    (6, true, 'SELECT %1$L::TYPE || %2$L::TYPE'),
    (7, true, 'SELECT %1$L::TYPE - %4$L'),
    (8, true, 'SELECT %1$L::TYPE - %3$L::text[]'),
    (9, true, 'SELECT %1$L::TYPE - %5$s'),
    (10, true, 'SELECT %1$L::TYPE #- %3$L::text[]'),
    (11, true, 'SELECT TYPE_set(%1$L, %3$L, %2$L)'),
    (12, true, 'SELECT TYPE_set(%1$L, %3$L, %2$L, false)'),
    (13, true, 'SELECT TYPE_insert(%1$L, %3$L, %2$L)'),
    (14, true, 'SELECT TYPE_insert(%1$L, %3$L, %2$L, true)'),
    (15, true, 'SELECT TYPE_strip_nulls(%1$L)'),
    (16, true, 'SELECT (%1$L::TYPE)%6$s'),
    (17, true, 'UPDATE one_TYPE SET d = %1$L; UPDATE one_TYPE SET d%6$s = %2$L; TABLE one_TYPE'),
    (18, true, 'UPDATE one_TYPE SET d = NULL; UPDATE one_TYPE SET d%6$s = %2$L; TABLE one_TYPE'),
    (19, true, 'SELECT TYPE_agg(squeezed(it)) FROM TYPE_array_elements_text(%1$L) it'),
    (20, true, 'SELECT TYPE_agg(it ORDER BY it) FROM TYPE_object_keys(%1$L) it'),
    (21, false, 'SELECT TYPE_array_length(%1$L)'),
    (22, true, 'SELECT TYPE_path_query_array(%1$L, ''$[*][*]'')'),
    (23, false, 'SELECT %1$L::TYPE @@ ''$.a[*] == 1'''),
    (24, false, 'SELECT TYPE_typeof(%1$L)'),
    (25, true, 'SELECT d -> %4$L FROM (SELECT %1$L::TYPE AS d OFFSET 0) s'),
    (26, true, 'SELECT d #> %3$L::text[] FROM (SELECT %1$L::TYPE AS d OFFSET 0) s'),
    (27, true, 'SELECT TYPE_merge_patch(%1$L, %2$L)');
CREATE TABLE one_jsonb (d jsonb);
CREATE TABLE one_kohiblad (d kohiblad);
INSERT INTO one_jsonb VALUES (NULL);
INSERT INTO one_kohiblad VALUES (NULL);
CREATE TABLE asked AS
    SELECT number, is_document, command, random_text(3) AS document, random_text(2) AS other,
        random_path() AS path, one_of('{a,b,c,0,"",é,x}') AS key, one_of('{0,1,2,-1,-3,9}') AS index
    FROM commands, generate_series(1, 500);
-- Half of what is looked for is a part of the document.
UPDATE asked SET other = coalesce(document::jsonb #>> '{a}', document::jsonb #>> '{0}', other)
WHERE random() < 0.5 AND number < 3 AND (document::jsonb #> '{a}' IS NOT NULL);
UPDATE asked SET other = document WHERE random() < 0.2 AND number < 3;
CREATE FUNCTION asked_of(asked, type text) RETURNS text LANGUAGE sql AS $$
    SELECT answer_of(replace(format($1.command, $1.document, $1.other, $1.path, $1.key, $1.index,
                                    coalesce(subscripts_of($1.path), '[0]')), 'TYPE', type))
$$;
CREATE FUNCTION same_json(left_text text, right_text text) RETURNS bool LANGUAGE plpgsql AS $$
BEGIN
    RETURN left_text::jsonb = right_text::jsonb;
EXCEPTION WHEN OTHERS THEN
    RETURN false;
END $$;
CREATE TABLE answered AS
    SELECT a.*, asked_of(a, 'jsonb') AS of_jsonb, asked_of(a, 'kohiblad') AS of_kohiblad
    FROM asked a;
SELECT number, count(*), count(*) FILTER (WHERE of_jsonb IS NOT DISTINCT FROM of_kohiblad
                                            OR is_document AND same_json(of_jsonb, of_kohiblad))
FROM answered GROUP BY number ORDER BY number;
-- The same in one query, whose calls keep what they make of a path or a key for the next row.
SELECT number, count(*) > 50, bool_and(same_json(of_jsonb, CASE number
        WHEN 7 THEN document - key
        WHEN 8 THEN document - path
        WHEN 10 THEN document #- path
        WHEN 11 THEN kohiblad_set(document, path, other)
        WHEN 12 THEN kohiblad_set(document, path, other, false)
        WHEN 13 THEN kohiblad_insert(document, path, other)
        WHEN 14 THEN kohiblad_insert(document, path, other, true)
        WHEN 26 THEN document #> path
    END::text))
FROM (SELECT number, document::kohiblad, other::kohiblad, path, key, of_jsonb FROM answered
      WHERE number IN (7, 8, 10, 11, 12, 13, 14, 26) AND of_jsonb !~ '^[0-9A-Z]{5}$'
      ORDER BY number, path, key OFFSET 0) s
GROUP BY number ORDER BY number;
-- A document as jsonb is what its text is.
SELECT count(*) > 10000, bool_and(document::kohiblad::jsonb::text = document::jsonb::text)
FROM asked;
SELECT bool_and(to_tsvector('simple', document::kohiblad) = to_tsvector('simple', document::jsonb)),
    bool_and(to_tsvector(document::kohiblad) = to_tsvector(document::jsonb)) FROM asked;
