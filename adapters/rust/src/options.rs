//! The marks of a call.

macro_rules! options {
    ($($name:ident { $($mark:ident),* })*) => {$(
        #[doc = concat!("The marks of this call: `", stringify!($($mark),*), "`; none by default.")]
        #[derive(Copy, Clone, Debug, Default, PartialEq)]
        pub struct $name {
            $(#[doc = concat!("`", stringify!($mark), "` of the standard.")] pub $mark: bool),*
        }
    )*};
}

options! {
    BasicQosOptions { global }
    BasicConsumeOptions { no_local, no_ack, exclusive, nowait }
    BasicCancelOptions { nowait }
    BasicPublishOptions { mandatory, immediate }
    BasicDeliverOptions { redelivered }
    BasicGetOptions { no_ack }
    BasicGetOkOptions { redelivered }
    BasicAckOptions { multiple }
    BasicRejectOptions { requeue }
    BasicRecoverAsyncOptions { requeue }
    BasicRecoverOptions { requeue }
    BasicNackOptions { multiple, requeue }
    ChannelFlowOptions { active }
    ChannelFlowOkOptions { active }
    AccessRequestOptions { exclusive, passive, active, write, read }
    ExchangeDeclareOptions { passive, durable, auto_delete, internal, nowait }
    ExchangeDeleteOptions { if_unused, nowait }
    ExchangeBindOptions { nowait }
    ExchangeUnbindOptions { nowait }
    QueueDeclareOptions { passive, durable, exclusive, auto_delete, nowait }
    QueueBindOptions { nowait }
    QueuePurgeOptions { nowait }
    QueueDeleteOptions { if_unused, if_empty, nowait }
    ConfirmSelectOptions { nowait }
}
