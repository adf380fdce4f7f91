-- What is refused, and how. Nothing of it ends the session.

-- images
select ''::kll_sketch;
select '\x00'::req_sketch;
select 'junk'::kll_sketch;
select '\xz'::req_sketch;
create table s as select kll_sketch_build(i) as kll, req_sketch_build(i) as req, kll_sketch_build(i::float8) as kll_x, req_sketch_build(i::float8) as req_x
    from generate_series(1, 10) i;
select kll::bytea::req_sketch from s;
select req::bytea::kll_sketch from s;
select substr(req::bytea, 1, octet_length(req::bytea) - 1)::req_sketch from s;
select (kll::bytea || '\x00')::kll_sketch from s;
select (req::bytea || '\x00')::req_sketch from s;
-- every shorter text, and every other byte in the frame, is refused; a byte changed elsewhere may be another sketch
create function is_refused(image bytea, family text) returns boolean language plpgsql as $$
begin
    execute format('select $1::%I', family || '_sketch') using image;
    return false;
exception when invalid_binary_representation then
    return true;
end $$;
select count(*) as read from s, generate_series(0, octet_length(kll::bytea) - 1) n where not is_refused(substr(kll::bytea, 1, n), 'kll');
select count(*) as read from s, generate_series(0, octet_length(req_x::bytea) - 1) n where not is_refused(substr(req_x::bytea, 1, n), 'req');
select count(*) as read from s, generate_series(0, 7) at, generate_series(1, 255) x
where not is_refused(set_byte(kll::bytea, at, get_byte(kll::bytea, at) # x), 'kll') and at <> 6;
select count(is_refused(set_byte(kll::bytea, at, get_byte(kll::bytea, at) # (1 << bit)), 'kll')) = 8 * max(octet_length(kll::bytea)) as answered
from s, generate_series(0, octet_length(kll::bytea) - 1) at, generate_series(0, 7) bit;
select count(is_refused(set_byte(req::bytea, at, get_byte(req::bytea, at) # (1 << bit)), 'req')) = 8 * max(octet_length(req::bytea)) as answered
from s, generate_series(0, octet_length(req::bytea) - 1) at, generate_series(0, 7) bit;

-- k
select kll_sketch_build(i, 7) from generate_series(1, 10) i;
select kll_sketch_build(i, 65536 + 200) from generate_series(1, 10) i;
select kll_sketch_build(i, -1) from generate_series(1, 10) i;
select req_sketch_build(i, 13) from generate_series(1, 10) i;
select req_sketch_build(i, 1026) from generate_series(1, 10) i;
select req_sketch_build(i, 2147483647) from generate_series(1, 10) i;

-- items
select kll_sketch_build('nan'::float8);
select req_sketch_build(x) from unnest('{1, nan}'::float8[]) x;
select kll_sketch_build(9223372036854775808::bigint);
select kll_sketch_build('abc');

-- fractions, points
select kll_sketch_get_quantile(kll, 1.5) from s;
select req_sketch_get_quantile(req, -0.1) from s;
select kll_sketch_get_quantile(kll, 'nan') from s;
select kll_sketch_get_quantiles(kll, '{0.5, 2}') from s;
select kll_sketch_get_quantiles(kll, '{0.5, null}') from s;
select kll_sketch_get_quantiles(kll, '{{0.5}, {0.6}}') from s;
select req_sketch_get_cdf(req, '{3, 3}') from s;
select req_sketch_get_pmf(req, '{4, 3}') from s;
select req_sketch_get_cdf(req, '{1, nan}') from s;
select kll_sketch_get_pmf(kll_x, '{nan}') from s;
select kll_sketch_get_rank(kll, 'nan'::float8) from s;
select req_sketch_get_rank(req_x, 'nan'::float8) from s;

-- the other kind of items, the other ranks, the other family
select kll_sketch_get_quantile_bigint(kll_x, 0.5) from s;
select kll_sketch_merge(kll, kll_x) from s;
select req_sketch_merge(x) from (select req as x from s union all select req_x from s) t;
select req_sketch_merge(req, (select req_sketch_build(i, 50, false) from generate_series(1, 3) i)) from s;
select kll_sketch_merge(req) from s;
select kll_sketch_get_quantile(req, 0.5) from s;

-- a query that is cancelled
set statement_timeout = '300ms';
select kll_sketch_build(i), req_sketch_build(i::float8, 1024) from (select generate_series(1, 1000000000) as i) t;
reset statement_timeout;
select kll_sketch_get_n(kll), req_sketch_get_n(req_x) from s;
drop table s;
drop function is_refused;
