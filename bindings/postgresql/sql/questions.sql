-- Questions to sketches that keep each item. Each answer is compared with what the items themselves give.
create table numbers as select i, i / 8.0::float8 - 3 as x, i * 90071992547409910 as big from generate_series(1, 100) i;
create table sketches as
    select kll_sketch_build(i::bigint) as kll, req_sketch_build(i::bigint) as req, kll_sketch_build(x) as kll_x, req_sketch_build(x) as req_x,
        kll_sketch_build(big) as kll_big, req_sketch_build(big) as req_big
    from numbers;

-- a hundredth more each time: the item at p / 100, and the one above it where the item itself doesn't count
select count(*) as wrong from generate_series(0, 100) p, sketches
where kll_sketch_get_quantile(kll, p / 100.0) <> greatest(p, 1) or req_sketch_get_quantile(req, p / 100.0) <> greatest(p, 1)
    or kll_sketch_get_quantile(kll, p / 100.0, false) <> least(p + 1, 100)
    or req_sketch_get_quantile(req, p / 100.0, false) <> least(p + 1, 100);
select count(*) as wrong from generate_series(1, 16) p, sketches
where kll_sketch_get_quantile(kll_x, p / 16.0) <> (select percentile_disc(p / 16.0) within group (order by x) from numbers)
    or req_sketch_get_quantile(req_x, p / 16.0) <> (select percentile_disc(p / 16.0) within group (order by x) from numbers);
select kll_sketch_get_quantiles(kll, '{0, 0.07, 0.5, 0.99, 1}'), req_sketch_get_quantiles(req, '{0, 0.07, 0.5, 0.99, 1}', false),
    kll_sketch_get_quantiles(kll, '{}') from sketches;

-- a bigint above 2^53
select kll_sketch_get_quantile_bigint(kll_big, 1) = greatest and req_sketch_get_quantile_bigint(req_big, 0) = least
        and kll_sketch_get_quantile_bigint(kll_big, 0.5) = median and req_sketch_get_quantile_bigint(req_big, 0.5, false) = above
        and kll_sketch_get_rank(kll_big, greatest - 1) = 0.99 and req_sketch_get_rank(req_big, greatest) = 1
        and kll_sketch_get_rank(kll_big, median, false) = 0.49 and req_sketch_get_rank(req_x, 0::bigint) = 0.24 as right
from sketches, (select max(big) as greatest, min(big) as least, max(big) filter (where i = 50) as median, max(big) filter (where i = 51) as above
    from numbers) n;

-- ranks
select count(*) as wrong from (select i, generate_series(-1, 1) / 4.0 as off from numbers) p, sketches
where kll_sketch_get_rank(kll, i + off) <> (select count(*) from numbers n where n.i <= p.i + off) / 100.0
    or req_sketch_get_rank(req, i + off) <> (select count(*) from numbers n where n.i <= p.i + off) / 100.0
    or kll_sketch_get_rank(kll, i + off, false) <> (select count(*) from numbers n where n.i < p.i + off) / 100.0
    or req_sketch_get_rank(req, i + off, false) <> (select count(*) from numbers n where n.i < p.i + off) / 100.0
    or kll_sketch_get_rank(kll_x, i + off) <> (select count(*) from numbers n where n.x <= p.i + off) / 100.0
    or req_sketch_get_rank(req_x, i + off, false) <> (select count(*) from numbers n where n.x < p.i + off) / 100.0;
select array_agg(kll_sketch_get_rank(kll, x)) as of_bigint, array_agg(req_sketch_get_rank(req_x, x)) as of_double
from sketches, unnest('{-infinity, -1e300, 0, 1e19, infinity}'::float8[]) x;

-- distributions
select kll_sketch_get_cdf(kll, '{25, 50.5, 75}'), req_sketch_get_cdf(req, '{25, 50.5, 75}', false), kll_sketch_get_cdf(kll, '{}') from sketches;
select kll_sketch_get_pmf(kll, '{25, 50.2, 50.5, 75}'), req_sketch_get_pmf(req, '{25, 50.2, 50.5, 75}', false), req_sketch_get_pmf(req, '{}') from sketches;
select kll_sketch_get_pmf(kll_x, '{-3, 0, 9.5}') as kll, req_sketch_get_pmf(req_x, '{-infinity, 0, infinity}') as req from sketches;

-- the ends, counts and shapes
select kll_sketch_get_min_item(kll), kll_sketch_get_max_item(kll_x), req_sketch_get_min_item(req_x), req_sketch_get_max_item(req) from sketches;
select kll_sketch_get_n(kll), req_sketch_get_n(req_x), (kll_sketch_info(kll)).*, (req_sketch_info(req_x)).* from sketches;

-- negative zero is zero, and infinities have their place
select kll_sketch_get_rank(s, 0, false), kll_sketch_get_rank(s, 0), kll_sketch_get_min_item(s), kll_sketch_get_max_item(s)
from (select kll_sketch_build(x) as s from unnest('{-0, 0, infinity, -infinity}'::float8[]) x) t;

-- an empty sketch has no answers: the images of docs/FORMATS.md of no item
select (kll_sketch_info(s)).*, kll_sketch_get_quantile(s, 0.5), kll_sketch_get_quantile_bigint(s, 0.5), kll_sketch_get_quantiles(s, '{0.5}'),
    kll_sketch_get_rank(s, 1.5), kll_sketch_get_rank(s, 1::bigint), kll_sketch_get_cdf(s, '{1}'), kll_sketch_get_pmf(s, '{1}'),
    kll_sketch_get_min_item(s), kll_sketch_get_max_item(s)
from (select '\x02010f01c8000800'::kll_sketch as s) t;

-- null in, null out
select kll_sketch_get_quantile(null, 0.5), req_sketch_get_rank(req, null::float8), kll_sketch_get_cdf(kll, null), req_sketch_merge(req, null) from sketches;
drop table numbers, sketches;
