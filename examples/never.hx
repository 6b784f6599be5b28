hx-script 1
config 8
global
  nbthread 1
frontend www
  bind :8080
  default_backend app
backend app
  http-reuse never # each session has its own connection, and closes it
  server s1 127.0.0.1:9001 pool-max-conn 20 pool-purge-delay 10s
client www 0 0
piece 0 0 "GET /a HTTP/1.1\r\nHost: h\r\n\r\n"
end 0 40
server app/s1
piece 0 28 "HTTP/1.1 200 OK\r\nContent-Length: 2\r\n\r\nhi"
