-- The aggregates: nulls, groups, windows, workers, memory.
set mezgoular.seed = 1;

-- no row, and no item that isn't null
select kll_sketch_build(i) is null, req_sketch_build(i) is null, kll_sketch_merge(null::kll_sketch) is null from generate_series(1, 0) i;
select kll_sketch_build(null::float8) is null, req_sketch_build(null::bigint, 50, true) is null from generate_series(1, 9);
select kll_sketch_get_n(kll_sketch_build(i)) from unnest('{1, null, 3}'::bigint[]) i;

-- what each type of item counts as
select (kll_sketch_info(kll_sketch_build(i::smallint))).items as smallint, (req_sketch_info(req_sketch_build(i))).items as integer,
    (kll_sketch_info(kll_sketch_build(i::bigint))).items as bigint, (req_sketch_info(req_sketch_build(i::real))).items as real,
    (kll_sketch_info(kll_sketch_build(i::float8))).items as double, (req_sketch_info(req_sketch_build(i::numeric))).items as numeric
from generate_series(1, 9) i;

-- k and, for REQ, which ranks are exact
select (kll_sketch_info(kll_sketch_build(i, 8))).k, (kll_sketch_info(kll_sketch_build(i, 65535))).k, (kll_sketch_info(kll_sketch_build(i, null))).k,
    (req_sketch_info(req_sketch_build(i, 4))).*, (req_sketch_info(req_sketch_build(i, 1024, false))).*, (req_sketch_info(req_sketch_build(i, 12, null))).high
from generate_series(1, 9) i;

-- groups, filters, windows
select i % 3 as part, kll_sketch_get_n(kll_sketch_build(i)), req_sketch_get_max_item(req_sketch_build(i) filter (where i < 90))
from generate_series(1, 100) i group by 1 order by 1;
select i, req_sketch_get_n(req_sketch_build(i) over w) as n, req_sketch_get_quantile(req_sketch_build(i) over w, 0.5) as median
from generate_series(1, 6) i window w as (order by i rows between 2 preceding and current row);
select i, kll_sketch_get_n(kll_sketch_build(i) over (order by i)) as n from generate_series(1, 3) i;

-- sketches of parts merge to a sketch of all: the 3k greatest numbers of REQ stay exact, and ranks are near
create table parts as
    select i % 24 as hour, kll_sketch_build(i::float8, 400) as kll, req_sketch_build(i) as req, req_sketch_build(i, 50, false) as low
    from generate_series(1, 240000) i group by 1;
select kll_sketch_get_n(kll_sketch_merge(kll)) as n, abs(kll_sketch_get_rank(kll_sketch_merge(kll), 120000) - 0.5) < 0.02 as near,
    kll_sketch_get_min_item(kll_sketch_merge(kll)) as min, kll_sketch_get_max_item(kll_sketch_merge(kll)) as max from parts;
select req_sketch_get_n(req_sketch_merge(req)) as n, abs(req_sketch_get_rank(req_sketch_merge(req), 216000) - 0.9) < 0.01 as near,
    req_sketch_get_quantile(req_sketch_merge(req), 0.9995) as p9995, req_sketch_get_quantile(req_sketch_merge(low), 0.0005) as p0005 from parts;
select kll_sketch_get_n(kll_sketch_merge(a.kll, b.kll)), req_sketch_get_n(req_sketch_merge(a.req, b.req)), req_sketch_get_max_item(req_sketch_merge(a.req, b.req)) as max
from parts a, parts b where a.hour = 1 and b.hour = 2;
update parts set req = req_sketch_merge(req, (select req_sketch_build(i) from generate_series(1, 1000) i)) where hour = 0;
select hour, req_sketch_get_n(req) from parts where hour < 2 order by hour;

-- workers
create table numbers (i integer) with (parallel_workers = 2);
insert into numbers select generate_series(1, 200000);
analyze numbers;
set parallel_setup_cost = 0;
set parallel_tuple_cost = 0;
set min_parallel_table_scan_size = 0;
set max_parallel_workers_per_gather = 2;
explain (costs off) select kll_sketch_build(i), req_sketch_build(i) from numbers;
select kll_sketch_get_n(k), abs(kll_sketch_get_rank(k, 100000) - 0.5) < 0.05 as near, req_sketch_get_n(r), req_sketch_get_quantile(r, 0.9999)
from (select kll_sketch_build(i) as k, req_sketch_build(i) as r from numbers) t;
select kll_sketch_build(i) is null as none, count(*) from numbers where i < 0;
select i % 3 as part, req_sketch_get_n(req_sketch_build(i)), req_sketch_get_max_item(req_sketch_build(i) filter (where i % 3 = 1)) as max from numbers group by 1 order by 1;
reset max_parallel_workers_per_gather;

-- The memory of sketches counts: 5000 groups don't fit 1 MB, so the hash table goes to the disk.
create function disk_used(query text) returns boolean language plpgsql as $$
declare
    plan json;
begin
    execute 'explain (analyze, format json) ' || query into plan;
    return plan::text like '%"HashAgg Batches"%' and (plan -> 0 -> 'Plan' ->> 'Disk Usage')::bigint > 0;
end $$;
set max_parallel_workers_per_gather = 0;
set enable_sort = off;
set work_mem = '1MB';
select disk_used('select i % 5000, req_sketch_build(i) from numbers group by 1') as req, disk_used('select i % 5000, kll_sketch_build(i) from numbers group by 1') as kll;
set work_mem = '256MB';
select disk_used('select i % 5000, req_sketch_build(i) from numbers group by 1') as req, disk_used('select i % 5000, kll_sketch_build(i) from numbers group by 1') as kll;
select count(*), min(n), max(n) from (select req_sketch_get_n(req_sketch_build(i)) as n from numbers group by i % 5000) t;
drop table parts, numbers;
drop function disk_used;
