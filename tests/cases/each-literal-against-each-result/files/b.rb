class A
  def a() :a? end
  def b() -1 end
  def c() 'c' end
  def d() "\\n" end
end
