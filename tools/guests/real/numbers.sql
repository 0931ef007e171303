
create table numbers(number integer primary key, square integer, text text);
with recursive counted(n) as (select 1 union all select n + 1 from counted where n < 5000)
    insert into numbers select n, n * n, printf('%06d', n * 7919 % 5000) from counted;
create index texts on numbers(text);
select count(*), sum(square), min(text), max(text) from numbers;
select number, text from numbers order by text desc limit 20;
select substr(text, 1, 3) as start, count(*), avg(square) from numbers group by start order by start limit 30;
