class A
  def f() 9223372036854775808 end
end
