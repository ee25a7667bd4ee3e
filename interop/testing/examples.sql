-- The queries of examples/ that KEEP or LIVE gives a name, as PostgreSQL asks them. Over each stand its script and its name.

-- archive running
SELECT tenant, days * contains(runs, read_point('now')) AS days FROM contracts;

-- bugs so_far
SELECT id, period(start_of(vt), ongoing.least(end_of(vt), read_point('now'))) AS known, days FROM bugs;

-- bugs r
SELECT b.id, p.pid,
    b.days * p.days * overlaps(b.vt, p.vt) * at_most(start_of(common(b.vt, p.vt)), read_point('now')) AS days
FROM bugs b JOIN patch p ON b.comp = p.comp;

-- patches r
SELECT b.id, p.pid, b.days * p.days * contains(b.vt, read_point('now')) * contains(p.vt, read_point('now')) AS days
FROM bugs b JOIN patch p ON b.comp = p.comp;

-- contracts so_far
SELECT id, tenant, period(start_of(runs), ongoing.least(end_of(runs), read_point('now'))) AS let, days FROM contracts;

-- contracts due
SELECT s.tenant, r.rent, common(s.let, r.holds) AS during_which, s.days * r.days * overlaps(s.let, r.holds) AS days
FROM so_far s JOIN rents r ON r.contract = s.id;

-- insurance covered
SELECT c.claim, p.holder, c.days * p.days * contains(p.covers, c.day) * at_most(c.day, read_point('now')) AS days
FROM claims c JOIN policies p ON c.policy = p.policy;

-- live waiting
SELECT b.id, s.name,
    b.days * s.days * contains(b.known, read_point('now')) * contains(s.works, read_point('now')) AS days
FROM bugs b JOIN staff s ON b.part = s.part;

-- live march
SELECT name, days FROM waiting;

-- staff leading
SELECT team, name, days * contains(leads, read_point('now')) AS days FROM leads;

-- staff so_far
SELECT name, period(start_of(works), ongoing.least(end_of(works), read_point('now'))) AS worked, days FROM staff;

-- valid so_far
SELECT tenant, period(start_of(runs), ongoing.least(end_of(runs), read_point('now'))) AS let, days FROM contracts;

-- valid begun
SELECT tenant, days * at_most(start_of(runs), read_point('now')) AS days FROM contracts;

-- valid present
SELECT tenant, days * contains(runs, read_point('now')) AS days FROM contracts;

-- valid let_in_2026
SELECT tenant, common(let, daterange('2026-01-01', '2027-01-01')) AS days_2, days FROM so_far;

-- valid tenants
SELECT tenant, days FROM contracts;

-- valid flats
SELECT id, days FROM contracts;
