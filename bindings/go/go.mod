module fedbundle.example/fedbundle

go 1.19
