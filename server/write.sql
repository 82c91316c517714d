-- rx.write(collection, document, deleted): how other programs write. It takes the document's fields, tests
-- them by the collection's schema, and answers the write time. It is one write of a master: a fork that
-- had the document before meets a conflict.

-- A member of a schema or a document in the one spelling of messages.
CREATE OR REPLACE FUNCTION rx.spelling(fields jsonb) RETURNS text LANGUAGE sql IMMUTABLE AS $$
    SELECT '{' || string_agg(to_json(key)::text || ':' || value::text, ',' ORDER BY key COLLATE "C") || '}'
    FROM jsonb_each(fields)
$$;

-- Why a field isn't one by its property, or null.
CREATE OR REPLACE FUNCTION rx.field_fault(rule jsonb, value jsonb, is_key boolean) RETURNS text
LANGUAGE plpgsql IMMUTABLE AS $$
DECLARE
    kind text := rule ->> 'type';
    number numeric;
    size integer;
BEGIN
    IF rule IS NULL THEN
        RETURN 'unknown';
    ELSIF jsonb_typeof(value) <> replace(kind, 'integer', 'number') THEN
        RETURN 'kind';
    ELSIF kind = 'string' THEN
        size := char_length(value #>> '{}');
        RETURN CASE WHEN size > (rule ->> 'maxLength')::integer OR is_key AND size = 0 THEN 'length' END;
    ELSIF kind = 'integer' THEN
        number := (value #>> '{}')::numeric;
        RETURN CASE
            WHEN scale(number) > 0 THEN 'kind'
            WHEN abs(number) > 9007199254740991 THEN 'range'
            WHEN number < (rule ->> 'minimum')::numeric OR number > (rule ->> 'maximum')::numeric
                OR number % (rule ->> 'multipleOf')::numeric <> 0 THEN 'bounds'
        END;
    END IF;
    RETURN NULL;
END
$$;

-- The first fault of a document's fields, or null.
CREATE OR REPLACE FUNCTION rx.fault(definition jsonb, document jsonb) RETURNS text
LANGUAGE sql IMMUTABLE AS $$
    SELECT fault || ': ' || name FROM (
        SELECT 0 AS rank, 'missing' AS fault, name
        FROM jsonb_array_elements_text(definition -> 'required') AS name WHERE NOT document ? name
        UNION ALL
        SELECT CASE fault WHEN 'unknown' THEN 1 ELSE 2 END, fault, key
        FROM jsonb_each(document), rx.field_fault(definition -> 'properties' -> key, value,
                                                  key = definition ->> 'primaryKey') AS fault
        WHERE fault IS NOT NULL
    ) AS faults ORDER BY rank, name COLLATE "C" LIMIT 1
$$;

CREATE OR REPLACE FUNCTION rx.write(collection text, document jsonb, deleted boolean DEFAULT false)
RETURNS bigint LANGUAGE plpgsql AS $$
DECLARE
    held rx.collections%ROWTYPE;
    fault text;
    moment bigint := floor(extract(epoch FROM clock_timestamp()) * 1000);
BEGIN
    SELECT * INTO held FROM rx.collections WHERE name = collection FOR UPDATE;
    IF NOT FOUND THEN
        RAISE EXCEPTION 'no_collection: %', collection;
    ELSIF jsonb_typeof(document) IS DISTINCT FROM 'object' THEN
        RAISE EXCEPTION 'not_object';
    END IF;
    fault := rx.fault(held.definition::jsonb, document);
    IF fault IS NOT NULL THEN
        RAISE EXCEPTION 'invalid: %', fault;
    ELSIF held.last >= 9007199254740991 THEN
        RAISE EXCEPTION 'clock';
    END IF;
    moment := greatest(moment, held.last + 1);
    EXECUTE format('INSERT INTO documents.%I AS it (key, state, lwt, deleted) VALUES ($1, $2, $3, $4)
                    ON CONFLICT (key) DO UPDATE SET state = $2, lwt = $3, deleted = $4', collection)
    USING convert_to(document ->> (held.definition::jsonb ->> 'primaryKey'), 'UTF8'),
          rx.spelling(document || jsonb_build_object('_deleted', deleted)), moment, deleted;
    UPDATE rx.collections SET last = moment WHERE name = collection;
    RETURN moment;
END
$$;
