-- mezgoular.seed
load 'mezgoular';
show mezgoular.seed;
create function built() returns text language sql volatile as
    $$ select md5(kll_sketch_build(i)::text) || ' ' || md5(req_sketch_build(i)::text) from generate_series(1, 100000) i $$;
create table builds (name text, built text);
set mezgoular.seed = 7;
insert into builds values ('7', built());
insert into builds values ('7, later', built());
set mezgoular.seed = 7;
insert into builds values ('7, again', built());
insert into builds values ('7, later again', built());
set mezgoular.seed = 8;
insert into builds values ('8', built());
reset mezgoular.seed;
insert into builds values ('random', built());
set mezgoular.seed = -1;
insert into builds values ('random again', built());
select a.name, b.name from builds a join builds b on a.built = b.built and a.name < b.name order by 1, 2;

-- the two sketches of one statement toss coins of their own
set mezgoular.seed = 7;
select count(distinct md5(s::text)) from (select kll_sketch_build(i) as s from generate_series(1, 10000) i, generate_series(1, 5) part group by part) t;
set mezgoular.seed = -2;
set mezgoular.seed = 2147483648;
drop table builds;
drop function built;
