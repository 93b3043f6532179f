! Gray codes by shifts and bits: each code differs from the one before in a single bit.
program gray
  integer(1) :: code(0:7), turned(7)
  integer :: i
  do concurrent (i = 0:7)
    code(i) = ieor(i, shiftr(i, 1))
  end do
  do concurrent (i = 1:7)
    turned(i) = popcnt(ieor(code(i), code(i - 1)))
  end do
  print *, code
  print *, turned
  print *, not(code(7)), ibset(code(0), 7), ishft(code(2), 6), shifta(ibset(code(0), 7), 3)
end program gray
