-- What clio must write of this folder, worked out in SQL: `dev/work-out examples/blog` runs it on SQLite.
--
-- Persons, articles and topics come together from several rules, by keys. So each rule says what it knows about
-- an object and a column, and where it knows nothing it has a null of its own, as docs/manual/output.md names them. Then the
-- value of a column is the text that some rule has for it, or else the least of the nulls.

-- The matches of each rule, by their places: the different texts of its variables, in the order of their bytes.
create table m0 as select row_number() over (order by nick, email) - 1 as place, *
  from (select distinct display_name as nick, trim(user_email) as email from source.wp_users);
create table m1 as select row_number() over (order by no, published, title, body, nick, email) - 1 as place, *
  from (select distinct p.ID as no, post_date as published, post_title as title, post_content as body,
               display_name as nick, trim(user_email) as email
          from source.wp_posts p join source.wp_users u on post_author = u.ID);
create table m2 as select row_number() over (order by no, article, signed, written, body) - 1 as place, *
  from (select distinct comment_ID as no, comment_post_ID as article, comment_author as signed, comment_date as written,
               comment_content as body from source.wp_comments);
create table m3 as select row_number() over (order by tid, label, slug) - 1 as place, *
  from (select distinct term_id as tid, name as label, slug from source.wp_terms);
create table m4 as select row_number() over (order by tid, kind, label, slug) - 1 as place, *
  from (select distinct term_id as tid, taxonomy as kind, name as label, slug
          from source.wp_term_taxonomy join source.wp_terms using (term_id));
create table m5 as select row_number() over (order by no, tid, kind, label, slug) - 1 as place, *
  from (select distinct object_id as no, term_id as tid, taxonomy as kind, name as label, slug
          from source.wp_term_relationships join source.wp_term_taxonomy using (term_taxonomy_id)
          join source.wp_terms using (term_id));
create table m6 as select row_number() over (order by city, email, full_name) - 1 as place, *
  from (select distinct city, trim(address) as email, trim(full_name) as full_name from source.subscribers);
create table m7 as select row_number() over (order by city, since, email, full_name) - 1 as place, *
  from (select distinct city, since, trim(address) as email, trim(full_name) as full_name from source.subscribers);
create table m8 as select row_number() over (order by no, published, title, body) - 1 as place, *
  from (select distinct ID as no, post_date as published, post_title as title, post_content as body from source.wp_posts);

-- A person is known by an address, or else as the author of an article.
create table author_of as
  select no, coalesce('@' || (select email from m1 where m1.no = a.no), 'author of ' || no) as who
    from (select no from m8 union select article from m2 union select no from m5) a;

-- What is known: an object, a column, a text.
create table known (object, col, text);
insert into known
  select '@' || email, 'email', email from (select email from m0 union select email from m6)
  union select '@' || email, 'nick', nick from m0
  union select '@' || email, 'full_name', full_name from m6
  union select '@' || email, 'city', city from m6
  union select 'article ' || no, 'title', title from m8
  union select 'article ' || no, 'body', body from m8
  union select 'article ' || no, 'published', published from m8
  union select 'topic ' || tid, 'slug', slug from m3
  union select 'topic ' || tid, 'label', label from m3
  union select 'topic ' || tid, 'kind', kind from m4;

-- What is open: an object, a column, and the null of a rule's match, by rule, variable and place.
create table open (object, col, rule, variable, place);
create table asks (rule, variable, kind, col);  -- the existential variables of each rule
insert into asks values
  (0, 0, 'person', 'pid'), (0, 1, 'person', 'full_name'), (0, 2, 'person', 'city'),
  (1, 0, 'person', 'pid'), (1, 1, 'person', 'full_name'), (1, 2, 'person', 'city'),
  (2, 0, 'article', 'title'), (2, 1, 'article', 'body'), (2, 2, 'article', 'published'), (2, 3, 'person', 'pid'),
  (2, 4, 'person', 'email'), (2, 5, 'person', 'nick'), (2, 6, 'person', 'full_name'), (2, 7, 'person', 'city'),
  (3, 0, 'topic', 'kind'),
  (5, 0, 'article', 'title'), (5, 1, 'article', 'body'), (5, 2, 'article', 'published'), (5, 3, 'person', 'pid'),
  (5, 4, 'person', 'email'), (5, 5, 'person', 'nick'), (5, 6, 'person', 'full_name'), (5, 7, 'person', 'city'),
  (6, 0, 'person', 'pid'), (6, 1, 'person', 'nick'),
  (7, 0, 'person', 'pid'), (7, 1, 'person', 'nick'),
  (8, 0, 'person', 'pid'), (8, 1, 'person', 'email'), (8, 2, 'person', 'nick'), (8, 3, 'person', 'full_name'),
  (8, 4, 'person', 'city');
create table meets as  -- the objects of each match
  select 0 as rule, place, 'person' as kind, '@' || email as object from m0
  union all select 1, place, 'person', '@' || email from m1
  union all select 2, place, 'person', who from m2 join author_of a on a.no = article
  union all select 2, place, 'article', 'article ' || article from m2
  union all select 3, place, 'topic', 'topic ' || tid from m3
  union all select 5, place, 'person', who from m5 join author_of using (no)
  union all select 5, place, 'article', 'article ' || no from m5
  union all select 6, place, 'person', '@' || email from m6
  union all select 7, place, 'person', '@' || email from m7
  union all select 8, place, 'person', who from m8 join author_of using (no);
insert into open select object, col, rule, variable, place from asks join meets using (rule, kind);

create table value as
  select object, col, text from known
  union all
  select object, col, least_null(skolem(rule, variable, place)) from open
    where not exists (select * from known k where k.object = open.object and k.col = open.col) group by object, col;

create table target.person as
  select p.text as pid, e.text as email, n.text as nick, f.text as full_name, c.text as city
    from value p join value e using (object) join value n using (object) join value f using (object) join value c using (object)
   where p.col = 'pid' and e.col = 'email' and n.col = 'nick' and f.col = 'full_name' and c.col = 'city';
create table target.article as
  select a.no, t.text as title, b.text as body, d.text as published, p.text as author
    from author_of a join value t on t.object = 'article ' || a.no and t.col = 'title'
    join value b on b.object = t.object and b.col = 'body' join value d on d.object = t.object and d.col = 'published'
    join value p on p.object = who and p.col = 'pid';
create table target.remark as select no, article, signed, written, body from m2;
create table target.topic as
  select tid, slug, label, k.text as kind from m3 join value k on k.object = 'topic ' || tid and k.col = 'kind';
create table target.article_topic as select no as article, tid as topic from m5;
create table target.subscription as
  select p.text as reader, since from m7 join value p on p.object = '@' || email and p.col = 'pid';

-- Which nulls became something else, and for each null that is left, the texts of its match.
create table target.fold as
  select skolem(rule, variable, place) as 'null', text as value from open join value using (object, col)
   where text <> skolem(rule, variable, place);
create table told (rule, place, variable, value);
insert into told
  select 0, place, 'x3', nick from m0 union all select 0, place, 'x4', email from m0
  union all select 1, place, 'x0', no from m1 union all select 1, place, 'x2', published from m1
  union all select 1, place, 'x3', title from m1 union all select 1, place, 'x4', body from m1
  union all select 1, place, 'x7', nick from m1 union all select 1, place, 'x8', email from m1
  union all select 2, place, 'x0', no from m2 union all select 2, place, 'x1', article from m2
  union all select 2, place, 'x2', signed from m2 union all select 2, place, 'x3', written from m2
  union all select 2, place, 'x4', body from m2
  union all select 3, place, 'x0', tid from m3 union all select 3, place, 'x1', label from m3
  union all select 3, place, 'x2', slug from m3
  union all select 5, place, 'x0', no from m5 union all select 5, place, 'x2', tid from m5
  union all select 5, place, 'x3', kind from m5 union all select 5, place, 'x5', label from m5
  union all select 5, place, 'x6', slug from m5
  union all select 6, place, 'x2', city from m6 union all select 6, place, 'x4', email from m6
  union all select 6, place, 'x5', full_name from m6
  union all select 7, place, 'x2', city from m7 union all select 7, place, 'x3', since from m7
  union all select 7, place, 'x4', email from m7 union all select 7, place, 'x5', full_name from m7
  union all select 8, place, 'x0', no from m8 union all select 8, place, 'x2', published from m8
  union all select 8, place, 'x3', title from m8 union all select 8, place, 'x4', body from m8;
create table target.nulls as
  select skolem(o.rule, o.variable, o.place) as 'null', t.variable, t.value
    from open o join told t using (rule, place)
   where skolem(o.rule, o.variable, o.place) in (select text from value);

-- What query.clio asks: its joins over the tables above, in which a null is equal to itself alone, as its text is; then only the rows without a null are kept. (A
-- null is written with one `?` in front, and a text that begins with `?` has two.) On a target that says no more than the rules do, these rows are the certain ones.
create table known_by as
  select title as c0, nick as c1 from target.article join target.person on author = pid
  union select title, full_name from target.article join target.person on author = pid;
create table target.answers as
  select * from known_by where not (c0 like '?%' and c0 not like '??%') and not (c1 like '?%' and c1 not like '??%');
