\set ECHO none \a \t
-- What the other scripts use. Each SELECT of a script prints lines that NAME.out has.
CREATE EXTENSION kohiblad;

-- The SQLSTATE and message of the error that a command ends with.
CREATE FUNCTION refusal(command text) RETURNS text LANGUAGE plpgsql AS $$
BEGIN
    EXECUTE command;
    RETURN 'not refused';
EXCEPTION WHEN OTHERS THEN
    RETURN SQLSTATE || ' ' || SQLERRM;
END $$;

-- The DETAIL of that error, or the HINT.
CREATE FUNCTION detail_of(command text) RETURNS text LANGUAGE plpgsql AS $$
DECLARE
    detail text;
    hint text;
BEGIN
    EXECUTE command;
    RETURN 'not refused';
EXCEPTION WHEN OTHERS THEN
    GET STACKED DIAGNOSTICS detail = PG_EXCEPTION_DETAIL, hint = PG_EXCEPTION_HINT;
    RETURN detail || hint;
END $$;

-- Whether the plan of a command has such a line.
CREATE FUNCTION plan_has(command text, wanted text) RETURNS bool LANGUAGE plpgsql AS $$
DECLARE
    line text;
BEGIN
    FOR line IN EXECUTE 'EXPLAIN (COSTS OFF) ' || command LOOP
        IF line LIKE '%' || wanted || '%' THEN
            RETURN true;
        END IF;
    END LOOP;
    RETURN false;
END $$;

-- The text of arrays that nest so deep, and their document by docs/FORMAT.md: the innermost holds
-- what is given, or nothing.
CREATE FUNCTION nested_text(depth int) RETURNS text LANGUAGE sql AS
    $$ SELECT repeat('[', depth) || repeat(']', depth) $$;
CREATE FUNCTION nested_bytes(depth int, innermost bytea = '\x80000000') RETURNS bytea
LANGUAGE sql AS $$
    SELECT decode(string_agg('80000001' ||
                             to_hex(x'50000000'::int + (depth - i - 1) * 8 + length(innermost)), ''
                             ORDER BY i), 'hex') || innermost
    FROM generate_series(1, depth - 1) i
$$;

-- Of how many documents of a table a row of another is found, by a query for each.
CREATE FUNCTION found_in(tested regclass, documents regclass) RETURNS bigint LANGUAGE plpgsql AS $$
DECLARE
    document kohiblad;
    is_found bool;
    found_documents bigint := 0;
BEGIN
    FOR document IN EXECUTE format('SELECT d FROM %s', documents) LOOP
        EXECUTE format('SELECT EXISTS (SELECT FROM %s WHERE d = %L::bytea::kohiblad)', tested,
                       document::bytea) INTO is_found;
        found_documents := found_documents + is_found::int;
    END LOOP;
    RETURN found_documents;
END $$;
