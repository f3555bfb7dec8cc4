module ironminnow.example/faxpages/go

go 1.18
