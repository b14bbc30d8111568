module bucketd/gateway

go 1.21
