-- complain if the script is sourced in psql
\echo Use "CREATE EXTENSION mezgoular" to load this file. \quit

-- Types, aggregates and functions, the same for both families: FAMILY stands for kll and for req.
do $do$
declare
    family text;
    kind text[];
    more text;
begin
    foreach family in array array['kll', 'req'] loop
        execute replace($sql$
create type FAMILY_sketch;
create function FAMILY_sketch_in(cstring) returns FAMILY_sketch
    as 'MODULE_PATHNAME' language c immutable strict parallel safe;
create function FAMILY_sketch_out(FAMILY_sketch) returns cstring
    as 'byteaout' language internal immutable strict parallel safe;
create function FAMILY_sketch_recv(internal) returns FAMILY_sketch
    as 'MODULE_PATHNAME' language c immutable strict parallel safe;
create function FAMILY_sketch_send(FAMILY_sketch) returns bytea
    as 'byteasend' language internal immutable strict parallel safe;
create type FAMILY_sketch (
    input = FAMILY_sketch_in, output = FAMILY_sketch_out, receive = FAMILY_sketch_recv, send = FAMILY_sketch_send,
    storage = extended);
create function FAMILY_sketch_from_bytea(bytea) returns FAMILY_sketch
    as 'MODULE_PATHNAME' language c immutable strict parallel safe;
create cast (FAMILY_sketch as bytea) without function;
create cast (bytea as FAMILY_sketch) with function FAMILY_sketch_from_bytea(bytea);

-- steps of the aggregates
create function FAMILY_sketch_add_image(internal, FAMILY_sketch) returns internal
    as 'MODULE_PATHNAME' language c volatile parallel safe;
create function FAMILY_sketch_combine(internal, internal) returns internal
    as 'MODULE_PATHNAME' language c volatile parallel safe;
create function FAMILY_sketch_serial(internal) returns bytea
    as 'MODULE_PATHNAME' language c volatile strict parallel safe;
create function FAMILY_sketch_deserial(bytea, internal) returns internal
    as 'MODULE_PATHNAME' language c volatile strict parallel safe;
create function FAMILY_sketch_final(internal) returns FAMILY_sketch
    as 'MODULE_PATHNAME' language c volatile parallel safe;

create aggregate FAMILY_sketch_merge(FAMILY_sketch) (
    sfunc = FAMILY_sketch_add_image, stype = internal, sspace = 16384, finalfunc = FAMILY_sketch_final,
    combinefunc = FAMILY_sketch_combine, serialfunc = FAMILY_sketch_serial, deserialfunc = FAMILY_sketch_deserial,
    parallel = safe);
create function FAMILY_sketch_merge(FAMILY_sketch, FAMILY_sketch) returns FAMILY_sketch
    as 'MODULE_PATHNAME' language c volatile strict parallel safe;

-- questions
create function FAMILY_sketch_get_quantile(FAMILY_sketch, fraction double precision, inclusive boolean default true)
    returns double precision as 'MODULE_PATHNAME' language c immutable strict parallel safe;
create function FAMILY_sketch_get_quantile_bigint(FAMILY_sketch, fraction double precision, inclusive boolean default true)
    returns bigint as 'MODULE_PATHNAME' language c immutable strict parallel safe;
create function FAMILY_sketch_get_quantiles(FAMILY_sketch, fractions double precision[], inclusive boolean default true)
    returns double precision[] as 'MODULE_PATHNAME' language c immutable strict parallel safe;
create function FAMILY_sketch_get_rank(FAMILY_sketch, point double precision, inclusive boolean default true)
    returns double precision as 'MODULE_PATHNAME' language c immutable strict parallel safe;
create function FAMILY_sketch_get_rank(FAMILY_sketch, point bigint, inclusive boolean default true)
    returns double precision as 'MODULE_PATHNAME', 'FAMILY_sketch_get_rank_bigint' language c immutable strict parallel safe;
create function FAMILY_sketch_get_cdf(FAMILY_sketch, points double precision[], inclusive boolean default true)
    returns double precision[] as 'MODULE_PATHNAME' language c immutable strict parallel safe;
create function FAMILY_sketch_get_pmf(FAMILY_sketch, points double precision[], inclusive boolean default true)
    returns double precision[] as 'MODULE_PATHNAME' language c immutable strict parallel safe;
create function FAMILY_sketch_get_min_item(FAMILY_sketch)
    returns double precision as 'MODULE_PATHNAME' language c immutable strict parallel safe;
create function FAMILY_sketch_get_max_item(FAMILY_sketch)
    returns double precision as 'MODULE_PATHNAME' language c immutable strict parallel safe;
create function FAMILY_sketch_get_n(FAMILY_sketch)
    returns bigint as 'MODULE_PATHNAME' language c immutable strict parallel safe;
create function FAMILY_sketch_info(
        FAMILY_sketch, out n bigint, out k integer, out retained bigint, out items text, out high boolean)
    as 'MODULE_PATHNAME' language c immutable strict parallel safe;
$sql$, 'FAMILY', family);

        -- FAMILY_sketch_build(item [, k [, high]]), where high is REQ's alone
        foreach kind slice 1 in array array[
                ['double precision', 'float8'], ['bigint', 'int8'], ['integer', 'int4'], ['smallint', 'int2']] loop
            foreach more in array array['', ', k integer', ', k integer, high boolean'] loop
                continue when family = 'kll' and more like '%high%';
                execute replace(replace(replace(replace($sql$
create function FAMILY_sketch_add(internal, item ITEM MORE) returns internal
    as 'MODULE_PATHNAME', 'FAMILY_add_SHORT' language c volatile parallel safe;
create aggregate FAMILY_sketch_build(item ITEM MORE) (
    sfunc = FAMILY_sketch_add, stype = internal, sspace = 16384, finalfunc = FAMILY_sketch_final,
    combinefunc = FAMILY_sketch_combine, serialfunc = FAMILY_sketch_serial, deserialfunc = FAMILY_sketch_deserial,
    parallel = safe);
$sql$, 'FAMILY', family), 'ITEM', kind[1]), 'SHORT', kind[2]), 'MORE', more);
            end loop;
        end loop;
    end loop;
end
$do$;
