module dihareku.example/gitnames

go 1.19
