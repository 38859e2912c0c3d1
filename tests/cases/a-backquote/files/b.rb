class A
  def f
    `ls`
  end
end
