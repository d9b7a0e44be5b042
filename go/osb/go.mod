module pippinterm/osb

go 1.19
