class A
  def f
    :"a"
  end
end
