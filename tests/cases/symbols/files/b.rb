class A
  def f
    :a
    :a?
    :a!
    :a=
    :A
    :class
    :+
    :[]
    :[]=
    :<=>
    :==
    :-@
    :_
  end
end
