-- From 1.0 to 1.1, over stored sketches; and what 1.1 brings.
drop extension mezgoular;
create extension mezgoular version '1.0';
create table stored as select kll_sketch_build(i) as s from generate_series(1, 100) i;
create view medians as select kll_sketch_get_quantile(s, 0.5) as median from stored;
select kll_sketch_build_weighted(1.5, 3);
alter extension mezgoular update;
select extversion from pg_extension where extname = 'mezgoular';
select * from medians;

-- an item of weight 3 is three items
select kll_sketch_get_n(s), kll_sketch_get_quantiles(s, '{0.2, 0.3, 0.9, 0.91}'), kll_sketch_get_rank(s, 2)
from (select kll_sketch_build_weighted(x::float8, w) as s from (values (1, 2), (2, 7), (3, 1), (null, 5), (4, null)) t (x, w)) t;
select kll_sketch_get_n(s), (kll_sketch_info(s)).k, kll_sketch_get_max_item(s)
from (select kll_sketch_build_weighted(x, w, 400) as s from (values (1::bigint, 1000000), (7, 1)) t (x, w)) t;
select kll_sketch_build_weighted(1::bigint, 0);
select kll_sketch_build_weighted(1.5, -1);
select kll_sketch_build_weighted(1.5, 2305843009213693952);

-- counts beyond 63 and 64 bits
select kll_sketch_get_n(kll_sketch_build_weighted(1.5, 2305843009213693951)) from generate_series(1, 4);
select kll_sketch_get_n(kll_sketch_build_weighted(1.5, 2305843009213693951)) from generate_series(1, 5);
select kll_sketch_get_rank(s, 1), kll_sketch_get_rank(s, 2) from (select kll_sketch_build_weighted(1.5, 2305843009213693951) as s from generate_series(1, 8)) t;
select kll_sketch_build_weighted(1.5, 2305843009213693951) from generate_series(1, 9);
select kll_sketch_merge(s, s) from (select kll_sketch_build_weighted(1.5, 2305843009213693951) as s from generate_series(1, 8)) t;

drop view medians;
drop table stored;
drop extension mezgoular;
