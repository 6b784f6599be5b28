hx-script 1
config 4
listen web
  bind :8080
  http-reuse always
  server s1 127.0.0.1:9001
client web 0 0
piece 0 0 "GET /news HTTP/1.1\r\nHost: h\r\n\r\n"
end 0 73
room 10
server web/s1
piece 0 31 "HTTP/1.1 200 OK\r\nTransfer-Encoding: chunked\r\n\r\n4;n=1\r\nwi"
piece 0 31 "ki\r\n0\r\nSum: 7\r\n\r\n"
