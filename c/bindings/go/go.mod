module tcpcore

go 1.19
