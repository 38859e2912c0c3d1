class A
  def f() 9_223_372_036_854_775_807 end
  def g() -9223372036854775808 end
end
