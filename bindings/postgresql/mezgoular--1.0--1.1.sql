-- complain if the script is sourced in psql
\echo Use "ALTER EXTENSION mezgoular UPDATE" to load this file. \quit

-- kll_sketch_build_weighted(item, weight [, k]): each item stands for `weight` equal ones.
do $do$
declare
    kind text[];
    more text;
begin
    foreach kind slice 1 in array array[['double precision', 'float8'], ['bigint', 'int8']] loop
        foreach more in array array['', ', k integer'] loop
            execute replace(replace(replace($sql$
create function kll_sketch_add_weighted(internal, item ITEM, weight bigint MORE) returns internal
    as 'MODULE_PATHNAME', 'kll_add_weighted_SHORT' language c volatile parallel safe;
create aggregate kll_sketch_build_weighted(item ITEM, weight bigint MORE) (
    sfunc = kll_sketch_add_weighted, stype = internal, sspace = 16384, finalfunc = kll_sketch_final,
    combinefunc = kll_sketch_combine, serialfunc = kll_sketch_serial, deserialfunc = kll_sketch_deserial,
    parallel = safe);
$sql$, 'ITEM', kind[1]), 'SHORT', kind[2]), 'MORE', more);
        end loop;
    end loop;
end
$do$;
