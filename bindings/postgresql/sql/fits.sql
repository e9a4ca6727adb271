\set ECHO none \a \t
-- A text or a jsonb fits exactly if its cast succeeds, and the fault is what its error says.
CREATE TABLE given (id int, t text);
INSERT INTO given VALUES
    (1, '{"a": 1e2}'), (2, '{"a": 1e40}'), (3, '[0.' || repeat('1', 38) || ']'),
    (4, '[0.' || repeat('0', 255) || '1]'), (5, '340282366920938463463374607431768211456'),
    (6, '[1,]'), (7, ''), (8, 'NaN'), (9, '1.'), (10, nested_text(1000)), (11, nested_text(1001)),
    (12, '\x20000000600000051000000001'), (13, '\x2000000g'), (14, '\x200'), (15, '\x'),
    (16, nested_bytes(1001)::text), (17, '"\u0000"'), (18, '"\ud800"'), (19, '1e-400');
SELECT id, kohiblad_fits(t), kohiblad_fault(t) FROM given ORDER BY id;
CREATE FUNCTION error_of(command text) RETURNS text LANGUAGE plpgsql AS $$
DECLARE
    detail text;
BEGIN
    EXECUTE command;
    RETURN NULL;
EXCEPTION WHEN OTHERS THEN
    GET STACKED DIAGNOSTICS detail = PG_EXCEPTION_DETAIL;
    RETURN replace(SQLERRM, 'kohiblad: ', '') || ': ' || detail;
END $$;
SELECT count(*) FROM given
WHERE kohiblad_fault(t) IS NOT DISTINCT FROM error_of(format('SELECT %L::kohiblad', t))
  AND kohiblad_fits(t) = (kohiblad_fault(t) IS NULL);
-- Of a jsonb the byte is that of its text.
SELECT id, kohiblad_fits(t::jsonb), kohiblad_fault(t::jsonb) FROM given WHERE id < 6 ORDER BY id;
SELECT count(*) FROM given
WHERE id < 6
  AND kohiblad_fault(t::jsonb) IS NOT DISTINCT FROM error_of(format('SELECT %L::jsonb::kohiblad', t));
SELECT kohiblad_fits('[1]'), kohiblad_fits(NULL::jsonb) IS NULL, kohiblad_fault(NULL::text) IS NULL;
-- A table of JSON is converted when no row is left that does not fit.
CREATE TABLE converted AS SELECT id, t::jsonb AS doc FROM given WHERE id IN (1, 2, 3, 5);
SELECT error_of('ALTER TABLE converted ALTER doc TYPE kohiblad');
DELETE FROM converted WHERE NOT kohiblad_fits(doc);
ALTER TABLE converted ALTER doc TYPE kohiblad;
SELECT * FROM converted ORDER BY id;
