hx-script 1
config 4
listen web
  bind :8080
  http-reuse always
  server s1 127.0.0.1:9001
client web 0 0
piece 0 0 "GET /old HTTP/1.1\r\nHost: h\r\n\r\n"
end 0 58
server web/s1
piece 0 30 "HTTP/1.0 200 OK\r\nServer: s\r\n\r\nall of it"
end 0 30
