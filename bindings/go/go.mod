module imaverify

go 1.19
