convert --to tape -o out.ptp hello.ptp
