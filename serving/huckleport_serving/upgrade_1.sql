-- Turns tables of version 1 into those of version 2. Documents and their logs stay as they are.
alter table huckleport.settings
    add column memory bigint not null default 268435456 check (memory >= 16777216),
    add column seconds float not null default 10 check (seconds > 0),
    add column document_lines bigint not null default 50000 check (document_lines > 0),
    add column document_bytes bigint not null default 67108864 check (document_bytes > 0),
    add column client_lines bigint not null default 100000 check (client_lines > 0),
    add column client_bytes bigint not null default 134217728 check (client_bytes > 0),
    add column connections int not null default 1000 check (connections > 0),
    add column questions text not null default '^$';

alter table huckleport.workers add column lease interval not null default interval '10 s';

alter table huckleport.requests
    add column at timestamptz not null default clock_timestamp(),
    drop constraint requests_line_check,
    add check (position('\x0a'::bytea in line) = 0 and octet_length(line) <= 16777217),
    drop constraint requests_document_client_request_key,
    add unique (client, document, request);
